/* Dates and change windows (document 02, E8) through the exported functions: every day from 1970 to 9999 both ways, against a calendar that counts day by day;
   each number of a date beyond its limits; windows of group settings, their refusals and their answers at each minute around their ends, against a plain answer;
   arrays of any numbers; and registers of settings with a window that is none, on which every call gives 17.
   Build: cc -I crates/host/include -I crates/planning_host/include crates/planning_host/test/windows_test.c \
     target/staticlib/libplanning_host.a -o windows_test */
#include <stdio.h>
#include <stdlib.h>
#include <string.h>

#include "chanbook_planning.h"

#define PAST_ALL UINT64_C(4223371680)

static void require(int so, const char *what, uint64_t of)
{
    if (!so) {
        fprintf(stderr, "windows_test: %s, %llu\n", what, (unsigned long long)of);
        exit(1);
    }
}

static uint64_t days_in(uint64_t year, uint64_t month)
{
    static const uint64_t days[] = { 31, 28, 31, 30, 31, 30, 31, 31, 30, 31, 30, 31 };
    int leap = year % 400 == 0 || (year % 4 == 0 && year % 100 != 0);
    return days[month - 1] + (month == 2 && leap);
}

static void same_date(struct chanbook_date date, uint64_t minute)
{
    struct chanbook_value there = chanbook_minute_of(date);
    struct chanbook_date_answer back = chanbook_date_of(minute);
    require(there.refusal == 0 && there.value == minute, "another minute", minute);
    require(back.refusal == 0 && memcmp(&back.date, &date, sizeof date) == 0, "another date", minute);
}

static void no_date(struct chanbook_date date)
{
    struct chanbook_value none = chanbook_minute_of(date);
    require(none.refusal == CHANBOOK_NOT_IN_CALENDAR && none.value == 0, "a minute of no date", date.day);
}

static void every_day(void)
{
    uint64_t minute = 0;
    for (uint64_t year = 1970; year <= 9999; year++)
        for (uint64_t month = 1; month <= 12; month++) {
            for (uint64_t day = 1; day <= days_in(year, month); day++, minute += 1440)
                same_date((struct chanbook_date){ year, month, day, day % 24, year % 60 }, minute + day % 24 * 60 + year % 60);
            no_date((struct chanbook_date){ year, month, days_in(year, month) + 1, 0, 0 });
            no_date((struct chanbook_date){ year, month, 0, 0, 0 });
        }
    require(minute == PAST_ALL, "another number of days", minute);
}

static void no_dates(void)
{
    static const uint64_t years[] = { 0, 1969, 10000, UINT64_C(4294969322), UINT64_MAX };
    static const uint64_t late[] = { 0, 1, UINT64_C(4294967296), UINT64_C(9223372036854775808), UINT64_MAX - PAST_ALL };
    for (unsigned i = 0; i < sizeof years / sizeof *years; i++)
        no_date((struct chanbook_date){ years[i], 1, 1, 0, 0 });
    no_date((struct chanbook_date){ 2026, 0, 1, 0, 0 });
    no_date((struct chanbook_date){ 2026, 13, 1, 0, 0 });
    no_date((struct chanbook_date){ 2026, 1, 1, 24, 0 });
    no_date((struct chanbook_date){ 2026, 1, 1, 0, 60 });
    no_date((struct chanbook_date){ 2026, 1, 1, UINT64_MAX, 0 });
    no_date((struct chanbook_date){ 2026, 1, 1, 0, UINT64_MAX });
    for (unsigned i = 0; i < sizeof late / sizeof *late; i++) {
        static const struct chanbook_date zeros;
        struct chanbook_date_answer none = chanbook_date_of(PAST_ALL + late[i]);
        require(none.refusal == CHANBOOK_NOT_IN_CALENDAR && memcmp(&none.date, &zeros, sizeof zeros) == 0, "a date of a late minute", late[i]);
    }
}

/* ---- windows */
static struct chanbook_group_settings group;
static struct chanbook_kept_windows kept;
static uint64_t seed = 1970;

static uint64_t chosen(uint64_t below)
{
    seed = seed * 6364136223846793005u + 1442695040888963407u;
    return (seed >> 33) % below;
}

/* The settings of a group of three, without a window. */
static void begin_settings(void)
{
    memset(&group, 0, sizeof group);
    group.settings.process_count = group.settings.replica_count = 3;
    group.settings.alive_replicas = 7;
    group.whole_mhz_from = CHANBOOK_LAST_SLOT;
}

static uint64_t make(void)
{
    return chanbook_windows_new(group, kept.starts, kept.ends, kept.figures);
}

static struct chanbook_window_answer ask(uint64_t minute)
{
    struct chanbook_kept_windows before = kept;
    struct chanbook_window_answer answer = chanbook_windows_ask(kept.starts, kept.ends, kept.figures, minute);
    require(memcmp(&before, &kept, sizeof kept) == 0, "a question changes the arrays", minute);
    return answer;
}

static void place(unsigned at, uint64_t start, uint64_t end)
{
    group.windows.places[at].start = chanbook_date_of(start).date;
    group.windows.places[at].end = chanbook_date_of(end).date;
}

/* The answer by document 02's sentences, from the minutes that were chosen. */
static void as_said(const uint64_t *starts, const uint64_t *ends, uint64_t minute)
{
    uint64_t next = UINT64_MAX;
    struct chanbook_window_answer answer = ask(minute);
    for (uint64_t i = 0; i < group.windows.count; i++) {
        if (starts[i] <= minute && minute < ends[i]) {
            require(answer.answer == CHANBOOK_INSIDE && answer.minute == 0, "not inside", minute);
            return;
        }
        if (starts[i] > minute && starts[i] < next)
            next = starts[i];
    }
    if (next == UINT64_MAX)
        require(answer.answer == CHANBOOK_NONE && answer.minute == 0, "one follows", minute);
    else
        require(answer.answer == CHANBOOK_NEXT && answer.minute == next, "another next one", minute);
}

static void answers(void)
{
    uint64_t starts[128], ends[128];
    begin_settings();
    for (int turn = 0; turn < 400; turn++) {
        uint64_t least = turn % 3 == 0 ? 0 : turn % 3 == 1 ? 29000000 : PAST_ALL - 5000;
        group.windows.count = turn < 129 ? (uint64_t)turn : chosen(129);
        for (unsigned i = 0; i < 128; i++) {
            starts[i] = least + chosen(4000);
            ends[i] = starts[i] + 1 + chosen(300);
            place(i, starts[i], ends[i]);
            if (i >= group.windows.count)
                group.windows.places[i].end.day = 77;
        }
        require(make() == 0 && kept.figures[CHANBOOK_WINDOWS_COUNT] == group.windows.count, "windows refused", (uint64_t)turn);
        for (uint64_t i = 0; i < group.windows.count; i++)
            for (uint64_t more = 0; more < 3; more++) {
                as_said(starts, ends, starts[i] + more - (starts[i] > 0));
                as_said(starts, ends, ends[i] + more - 1);
            }
        as_said(starts, ends, PAST_ALL - 1);
        require(ask(PAST_ALL).answer == 17 && ask(UINT64_MAX).answer == 17, "an answer to a late minute", (uint64_t)turn);
    }
}

/* A register of the settings gives the same number on every call, and stays. */
static void register_refuses(uint64_t number)
{
    static struct chanbook_register r, before;
    static struct chanbook_position positions[512];
    static struct chanbook_stored_register stored;
    static uint64_t numbers[512];
    static uint8_t out[CHANBOOK_REPORT_BYTES];
    char line[32];
    chanbook_register_new(group, r.settings, r.cells, r.carriers, r.widths, r.figures);
    for (int widened = 0; widened < 2; widened++) {
        require(r.settings[CHANBOOK_SETTINGS_NUMBER] == number, "another number kept than", number);
        chanbook_positions_new(positions);
        before = r;
        for (uint64_t kind = 0; kind < 5; kind++) {
            require(chanbook_register_entry(r.settings, r.cells, r.carriers, r.widths, r.figures, 0, kind, 7, 1, 1) == number, "an entry gives not", number);
            require(chanbook_register_entry(r.settings, r.cells, r.carriers, r.widths, r.figures, UINT64_MAX, kind, 7, 1, 1) == number, "an entry gives not", number);
            require(chanbook_placed_entry(r.settings, r.cells, r.carriers, r.widths, r.figures, positions, UINT64_MAX, kind, 7, 1, 1, INT64_MAX, 0) == number,
                    "an entry with positions gives not", number);
        }
        struct chanbook_fed fed = chanbook_feed(r.settings, r.cells, r.carriers, r.widths, r.figures, NULL, 0, NULL, 0, NULL, 0, NULL, 0, NULL, 0, NULL, 0);
        require(fed.refusal == number && fed.slot == 0 && fed.number == 0, "a list gives not", number);
        struct chanbook_value list = chanbook_conflicts(r.settings, r.cells, r.carriers, r.widths, r.figures, positions, 1, 0, INT64_MAX, 0, 0, numbers);
        require(list.refusal == number && list.value == 0 && numbers[0] == 0, "conflicts give not", number);
        struct chanbook_value free = chanbook_first_free(r.settings, r.cells, r.carriers, r.widths, r.figures, positions, 1, 0, 0, INT64_MAX, 0, 0);
        require(free.refusal == number && free.value == 0, "a search gives not", number);
        uint64_t length = chanbook_register_report(r.settings, r.figures, out);
        int wanted = snprintf(line, sizeof line, "refused,%llu\r\n", (unsigned long long)number);
        require(length == (uint64_t)wanted && memcmp(out, line, length) == 0 && out[length] == 0, "another report than", number);
        require(memcmp(&before, &r, sizeof r) == 0, "a refused call changes a register", number);
        chanbook_register_widened(group, stored.cells, stored.carriers, stored.widths, stored.figures, r.settings, r.cells, r.carriers, r.widths, r.figures);
    }
}

static void refused_with(uint64_t number)
{
    static const struct chanbook_kept_windows zeros;
    require(make() == number && ask(5).answer == number && ask(UINT64_MAX).answer == number && ask(5).minute == 0, "another number than", number);
    require(kept.figures[CHANBOOK_WINDOWS_NUMBER] == number && kept.figures[CHANBOOK_WINDOWS_COUNT] == 0, "another number kept than", number);
    require(memcmp(kept.starts, zeros.starts, sizeof kept.starts) == 0 && memcmp(kept.ends, zeros.ends, sizeof kept.ends) == 0, "minutes are kept", number);
    register_refuses(number);
}

static void refusals(void)
{
    begin_settings();
    group.windows.count = 129;
    refused_with(1);
    group.windows.count = UINT64_MAX;
    refused_with(1);
    group.windows.count = 128;
    refused_with(17);
    /* all of 1 before any 17 */
    group.whole_mhz_from = CHANBOOK_LAST_SLOT + 1;
    refused_with(1);
    begin_settings();
    group.windows.count = 1;
    group.settings.mode = 6;
    refused_with(1);
    begin_settings();
    group.windows.count = 1;
    group.settings.my_pid = 3;
    refused_with(1);
    begin_settings();
    group.windows.count = 128;
    for (unsigned i = 0; i < 128; i++)
        place(i, 10 * i, 10 * i + 1);
    require(make() == 0, "128 windows", 0);
    place(127, 7, 7);
    refused_with(17);
    place(127, 8, 7);
    refused_with(17);
    group.windows.count = 127;
    require(make() == 0, "127 windows", 0);
    group.windows.places[3].start.minute = 60;
    refused_with(17);
    group.windows.count = 0;
    require(make() == 0 && ask(0).answer == CHANBOOK_NONE, "no windows", 0);
}

/* Whatever the arrays hold. */
static void any_numbers(void)
{
    memset(&kept, 255, sizeof kept);
    require(ask(5).answer == 1, "a number that is none", 0);
    kept.figures[CHANBOOK_WINDOWS_NUMBER] = 17;
    require(ask(5).answer == 17, "another number than", 17);
    kept.figures[CHANBOOK_WINDOWS_NUMBER] = 16;
    require(ask(5).answer == 1, "another number than", 1);
    kept.figures[CHANBOOK_WINDOWS_NUMBER] = 0;
    require(ask(5).answer == 1, "more than 128", 0);
    kept.figures[CHANBOOK_WINDOWS_COUNT] = 128;
    require(ask(5).answer == CHANBOOK_NONE, "starts past the year 9999", 0);
}

/* A register whose settings have any number: 17 is 17, any other but 0 is 1. */
static void any_marks(void)
{
    static const uint64_t marks[] = { 1, 2, 16, 18, 23, 64, 273, UINT64_C(4294967313), UINT64_MAX };
    struct chanbook_register r;
    memset(&r, 0, sizeof r);
    for (unsigned i = 0; i < sizeof marks / sizeof *marks; i++) {
        r.settings[CHANBOOK_SETTINGS_NUMBER] = marks[i];
        require(chanbook_register_entry(r.settings, r.cells, r.carriers, r.widths, r.figures, 0, 1, 7, 1, 1) == 1, "not read as 1", marks[i]);
    }
    r.settings[CHANBOOK_SETTINGS_NUMBER] = 17;
    require(chanbook_register_entry(r.settings, r.cells, r.carriers, r.widths, r.figures, 0, 1, 7, 1, 1) == 17, "not read as", 17);
}

int main(void)
{
    every_day();
    no_dates();
    answers();
    refusals();
    any_numbers();
    any_marks();
    puts("windows_test: as said");
    return 0;
}
