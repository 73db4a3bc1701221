/* The exported functions of the planning modules. The raster: the ends of its ranges, every number there and back, and what has no number. The
   register: each number of an entry at its limits and beyond, two causes at once, 512 cells and one more, what a refused and an older entry
   leave, arrays of any numbers, the report's bytes, cells above 65,535, stored registers that are gone on with, widths about the slot of whole MHz, and
   registers that are not made.
   Build: cc -I crates/host/include -I crates/planning_host/include crates/planning_host/test/planning_test.c \
     target/staticlib/libplanning_host.a -o planning_test */
#include <stdio.h>
#include <stdlib.h>
#include <string.h>

#include "chanbook_planning.h"

static void require(int so, const char *what, uint64_t of)
{
    if (!so) {
        fprintf(stderr, "planning_test: %s, %llu\n", what, (unsigned long long)of);
        exit(1);
    }
}

static void pair(uint64_t number, uint64_t khz)
{
    struct chanbook_value there = chanbook_raster_khz(number), back = chanbook_raster_number(khz);
    require(there.refusal == 0 && there.value == khz, "another frequency", number);
    require(back.refusal == 0 && back.value == number, "another number", khz);
}

static void no_number(uint64_t khz)
{
    struct chanbook_value none = chanbook_raster_number(khz);
    require(none.refusal == CHANBOOK_NO_RASTER && none.value == 0, "a number", khz);
}

static void no_frequency(uint64_t number)
{
    struct chanbook_value none = chanbook_raster_khz(number);
    require(none.refusal == CHANBOOK_NO_RASTER && none.value == 0, "a frequency", number);
}

static void ends(void)
{
    pair(0, 0);
    pair(1, 5);
    pair(599999, 2999995);
    pair(600000, 3000000);
    pair(600001, 3000015);
    pair(2016666, 24249990);
    pair(2016667, 24250080);
    pair(2016668, 24250140);
    pair(3279165, 99999960);
    no_number(3000005);
    for (uint64_t khz = 24249991; khz < 24250080; khz++)
        no_number(khz);
    no_number(99999961);
    no_number(100000020);
    no_frequency(3279166);
}

static void ends_of_64_bits(void)
{
    static const uint64_t large[] = { 4294967296, 4294967301, 9223372036854775808u, 18446744073709551615u, 18446744073709551615u / 5 + 1 };
    for (unsigned i = 0; i < sizeof large / sizeof *large; i++) {
        no_number(large[i]);
        no_frequency(large[i]);
    }
}

/* Every number has a frequency above the one before it, and it is that number's. What lies between the two has no number. */
static void every_number(void)
{
    uint64_t next = 0;
    for (uint64_t number = 0; number <= 3279165; number++) {
        uint64_t khz = chanbook_raster_khz(number).value;
        pair(number, khz);
        for (; next < khz; next++)
            no_number(next);
        next = khz + 1;
    }
}

/* ---- the register */
static const uint64_t LAST_SLOT = 9223372036854775806u, MOST = 18446744073709551615u;

static struct chanbook_register held;

/* The settings of a group of three whose widths are in whole MHz from this slot on. */
static struct chanbook_group_settings group_from(uint64_t slot)
{
    struct chanbook_group_settings group;
    memset(&group, 0, sizeof group);
    group.settings.process_count = group.settings.replica_count = 3;
    group.settings.alive_replicas = 7;
    group.whole_mhz_from = slot;
    return group;
}

static void begin_from(struct chanbook_group_settings group)
{
    chanbook_register_new(group, held.settings, held.cells, held.carriers, held.widths, held.figures);
}

static void begin(void)
{
    begin_from(group_from(LAST_SLOT));
}

static uint64_t entry(uint64_t slot, uint64_t kind, chanbook_cell_number cell, uint64_t carrier, uint64_t width)
{
    return chanbook_register_entry(held.settings, held.cells, held.carriers, held.widths, held.figures, slot, kind, cell, carrier, width);
}

static uint64_t assign(uint64_t slot, chanbook_cell_number cell, uint64_t carrier, uint64_t width)
{
    return entry(slot, CHANBOOK_ASSIGNMENT, cell, carrier, width);
}

static uint64_t release(uint64_t slot, chanbook_cell_number cell)
{
    return entry(slot, CHANBOOK_RELEASE, cell, 0, 0);
}

static void figures_are(uint64_t next_slot, uint64_t made, uint64_t superseded, uint64_t released, uint64_t live)
{
    const uint64_t expected[5] = { next_slot, made, superseded, released, live };
    for (unsigned i = 0; i < CHANBOOK_FIGURES; i++)
        require(held.figures[i] == expected[i], "another figure at place", i);
}

static void cell_is(unsigned place, uint64_t cell, uint64_t carrier, uint64_t width)
{
    require(held.cells[place] == cell && held.carriers[place] == carrier && held.widths[place] == width, "another cell at place", place);
}

/* 512 live cells: 10, 20, .. 5120, in slots 0 to 511. */
static void fill(void)
{
    begin();
    for (uint64_t i = 0; i < CHANBOOK_LIVE_CELLS; i++)
        require(assign(i, (chanbook_cell_number)(10 * (i * 311 % 512 + 1)), i, 1000 + i) == CHANBOOK_DONE, "512 cells", i);
    figures_are(512, 512, 0, 0, 512);
}

static void a_new_register(void)
{
    static struct chanbook_register fresh;
    memset(&held, 0xa5, sizeof held);
    begin_from(group_from(5));
    fresh.settings[CHANBOOK_WHOLE_MHZ_FROM] = 5;
    require(memcmp(&held, &fresh, sizeof held) == 0, "a new register", 0);
}

static void limits_of_an_assignment(void)
{
    begin();
    require(assign(0, 0, 0, 1) == CHANBOOK_DONE, "the least of each number", 0);
    require(assign(1, 4294967295u, 3279165, 400000) == CHANBOOK_DONE, "the largest of each number", 1);
    require(assign(2, 7, 3279166, 1) == CHANBOOK_NO_RASTER, "a carrier past the last", 2);
    require(assign(3, 7, 4294967296, 1) == CHANBOOK_NO_RASTER, "a carrier of 33 bits", 3);
    require(assign(4, 7, MOST, 1) == CHANBOOK_NO_RASTER, "a carrier of 64 bits", 4);
    require(assign(5, 7, 0, 0) == CHANBOOK_NO_RASTER, "no width", 5);
    require(assign(6, 7, 0, 400001) == CHANBOOK_NO_RASTER, "a width past the last", 6);
    require(assign(7, 7, 0, 4294967297) == CHANBOOK_NO_RASTER, "a width of 33 bits", 7);
    require(assign(8, 7, 0, MOST) == CHANBOOK_NO_RASTER, "a width of 64 bits", 8);
    figures_are(9, 2, 0, 0, 2);
    cell_is(0, 0, 0, 1);
    cell_is(1, 4294967295u, 3279165, 400000);
}

static void limits_of_the_kind(void)
{
    static const uint64_t unknown[] = { 0, 3, 4294967297, 4294967298, MOST };
    begin();
    for (unsigned i = 0; i < sizeof unknown / sizeof *unknown; i++) {
        require(entry(i, unknown[i], 7, 1, 1) == CHANBOOK_NO_RASTER, "a kind", unknown[i]);
        figures_are(i + 1, 0, 0, 0, 0);
    }
}

/* A register at `next_slot` with one live cell, and marks where no cell is. */
static void marked(uint64_t next_slot)
{
    memset(&held, 0xa5, sizeof held);
    held.settings[CHANBOOK_SETTINGS_NUMBER] = 0;
    held.settings[CHANBOOK_WHOLE_MHZ_FROM] = LAST_SLOT;
    held.cells[0] = 7;
    held.carriers[0] = 100;
    held.widths[0] = 5000;
    held.figures[CHANBOOK_NEXT_SLOT] = next_slot;
    held.figures[CHANBOOK_MADE] = held.figures[CHANBOOK_LIVE] = 1;
    held.figures[CHANBOOK_SUPERSEDED] = held.figures[CHANBOOK_RELEASED] = 0;
}

/* The entry gives the number and leaves every number. */
static void leaves_all(uint64_t number, uint64_t slot, uint64_t kind, chanbook_cell_number cell, uint64_t carrier, uint64_t width)
{
    const struct chanbook_register before = held;
    require(entry(slot, kind, cell, carrier, width) == number, "another number for slot", slot);
    require(memcmp(&held, &before, sizeof held) == 0, "a change by slot", slot);
}

/* The entry gives the number, and its slot alone is seen. */
static void leaves_the_rest(uint64_t number, uint64_t slot, uint64_t kind, chanbook_cell_number cell, uint64_t carrier, uint64_t width)
{
    struct chanbook_register before = held;
    before.figures[CHANBOOK_NEXT_SLOT] = slot + 1;
    require(entry(slot, kind, cell, carrier, width) == number, "another number for slot", slot);
    require(memcmp(&held, &before, sizeof held) == 0, "a change by slot", slot);
}

static void slots(void)
{
    marked(0);
    leaves_all(CHANBOOK_TOO_LARGE, LAST_SLOT + 1, CHANBOOK_ASSIGNMENT, 7, 1, 1);
    leaves_all(CHANBOOK_TOO_LARGE, MOST, CHANBOOK_RELEASE, 7, 0, 0);
    require(assign(LAST_SLOT, 7, 1, 1000) == CHANBOOK_DONE, "the last slot", LAST_SLOT);
    figures_are(LAST_SLOT + 1, 2, 1, 0, 1);
    leaves_all(CHANBOOK_TOO_LARGE, LAST_SLOT + 1, CHANBOOK_ASSIGNMENT, 7, 1, 1);
    leaves_all(CHANBOOK_OLDER, LAST_SLOT, CHANBOOK_RELEASE, 7, 0, 0);
    leaves_all(CHANBOOK_OLDER, 0, CHANBOOK_ASSIGNMENT, 8, 1, 1);
}

/* Slots 4 to 9 are left out; the same slot again and those before it are older, also where the entry with the slot was refused. */
static void older_and_repeated(void)
{
    marked(4);
    leaves_all(CHANBOOK_OLDER, 3, CHANBOOK_ASSIGNMENT, 8, 1, 1);
    require(assign(10, 8, 200, 1) == CHANBOOK_DONE, "slots left out", 10);
    leaves_all(CHANBOOK_OLDER, 10, CHANBOOK_ASSIGNMENT, 8, 300, 1);
    leaves_all(CHANBOOK_OLDER, 9, CHANBOOK_RELEASE, 8, 0, 0);
    leaves_the_rest(CHANBOOK_CELL_NOT_LIVE, 11, CHANBOOK_RELEASE, 9, 0, 0);
    leaves_all(CHANBOOK_OLDER, 11, CHANBOOK_ASSIGNMENT, 9, 1, 1);
    leaves_the_rest(CHANBOOK_NO_RASTER, 12, CHANBOOK_ASSIGNMENT, 7, 1, 0);
    leaves_all(CHANBOOK_OLDER, 12, CHANBOOK_ASSIGNMENT, 7, 1, 1);
    figures_are(13, 2, 0, 0, 2);
}

/* 2, then older, then 14, then 15 or 16. */
static void two_causes_at_once(void)
{
    marked(LAST_SLOT + 1);
    leaves_all(CHANBOOK_TOO_LARGE, LAST_SLOT + 1, CHANBOOK_ASSIGNMENT, 7, MOST, 0);
    leaves_all(CHANBOOK_TOO_LARGE, LAST_SLOT + 1, CHANBOOK_RELEASE, 9, 0, 0);
    leaves_all(CHANBOOK_TOO_LARGE, MOST, 3, 7, 1, 1);
    leaves_all(CHANBOOK_OLDER, LAST_SLOT, CHANBOOK_ASSIGNMENT, 7, MOST, 0);
    leaves_all(CHANBOOK_OLDER, 5, CHANBOOK_RELEASE, 9, 0, 0);
    leaves_all(CHANBOOK_OLDER, 5, 0, 7, 1, 1);
    marked(MOST);
    leaves_all(CHANBOOK_TOO_LARGE, LAST_SLOT + 1, CHANBOOK_ASSIGNMENT, 7, 1, 1);
    leaves_all(CHANBOOK_OLDER, LAST_SLOT, CHANBOOK_ASSIGNMENT, 7, 1, 1);
    fill();
    leaves_all(CHANBOOK_OLDER, 511, CHANBOOK_ASSIGNMENT, 11, 1, 1);
    leaves_the_rest(CHANBOOK_NO_RASTER, 512, CHANBOOK_ASSIGNMENT, 11, 3279166, 1);
    leaves_the_rest(CHANBOOK_NO_RASTER, 513, CHANBOOK_ASSIGNMENT, 11, 1, 400001);
    leaves_the_rest(CHANBOOK_NO_RASTER, 514, 3, 11, 1, 1);
    leaves_the_rest(CHANBOOK_CELL_NOT_LIVE, 515, CHANBOOK_RELEASE, 11, MOST, MOST);
}

/* A new cell finds no room at 512 and a live one does; a freed place serves again; cells stand by number. */
static void one_more_than_512(void)
{
    fill();
    for (unsigned i = 0; i < CHANBOOK_LIVE_CELLS; i++)
        cell_is(i * 311 % 512, 10 * (i * 311 % 512 + 1), i, 1000 + i);
    leaves_the_rest(CHANBOOK_NO_ROOM, 512, CHANBOOK_ASSIGNMENT, 0, 1, 1);
    leaves_the_rest(CHANBOOK_NO_ROOM, 513, CHANBOOK_ASSIGNMENT, 4294967295u, 1, 1);
    require(assign(514, 5120, 600000, 20000) == CHANBOOK_DONE, "a live cell with 512 live", 514);
    cell_is(511, 5120, 600000, 20000);
    figures_are(515, 513, 1, 0, 512);
    require(release(515, 10) == CHANBOOK_DONE, "a release", 515);
    cell_is(510, 5120, 600000, 20000);
    require(held.cells[0] == 20, "the cell behind a released one", 515);
    leaves_the_rest(CHANBOOK_CELL_NOT_LIVE, 516, CHANBOOK_RELEASE, 10, 0, 0);
    require(assign(517, 25, 700000, 5) == CHANBOOK_DONE, "a freed place", 517);
    cell_is(1, 25, 700000, 5);
    cell_is(511, 5120, 600000, 20000);
    figures_are(518, 514, 1, 1, 512);
    leaves_the_rest(CHANBOOK_NO_ROOM, 518, CHANBOOK_ASSIGNMENT, 10, 1, 1);
}

/* A release may say anything of a carrier and a width. */
static void every_cell_released(void)
{
    fill();
    for (uint64_t i = 0; i < CHANBOOK_LIVE_CELLS; i++)
        require(entry(512 + i, CHANBOOK_RELEASE, (chanbook_cell_number)(10 * (i * 205 % 512 + 1)), MOST - i, MOST) == CHANBOOK_DONE, "a release", i);
    figures_are(1024, 512, 0, 512, 0);
}

static int is_a_number(uint64_t number)
{
    return number <= CHANBOOK_TOO_LARGE || (number >= CHANBOOK_NO_RASTER && number <= CHANBOOK_CELL_NOT_LIVE) || number == CHANBOOK_ODD_WIDTH
           || number == CHANBOOK_OLDER;
}

/* Arrays of any numbers between two rows of marks: an entry gives one of the numbers, the report fits, and the marks stay. */
static void arrays_of_any_numbers(void)
{
    static struct { uint64_t before[8]; struct chanbook_register r; uint8_t out[CHANBOOK_REPORT_BYTES]; uint8_t after[60]; } lent, marks;
    static const uint64_t counts[] = { 0, 1, 511, 512, 513, 4294967296, 4294967808, 9223372036854775808u, 18446744073709551615u };
    uint64_t row = 6;
    memset(&marks, 0xa5, sizeof marks);
    for (unsigned round = 0; round < 20000; round++) {
        lent = marks;
        for (unsigned i = 0; i < sizeof lent.r / sizeof row; i++) {
            row = row * 6364136223846793005u + 1442695040888963407u;
            ((uint64_t *)&lent.r)[i] = row >> (row >> 58);
        }
        lent.r.figures[CHANBOOK_LIVE] = counts[round % 9];
        if (round % 5 != 0)
            lent.r.settings[CHANBOOK_SETTINGS_NUMBER] = 0;
        uint64_t slot = row >> 1, kind = row % 3, width = row % 400000 + 1;
        require(is_a_number(chanbook_register_entry(lent.r.settings, lent.r.cells, lent.r.carriers, lent.r.widths, lent.r.figures, slot, kind,
                                                    (chanbook_cell_number)(row >> 40), row % 3279166, width)), "no number of an entry, round", round);
        require(chanbook_register_report(lent.r.settings, lent.r.figures, lent.out) <= CHANBOOK_REPORT_BYTES, "a longer report, round", round);
        require(memcmp(lent.before, marks.before, sizeof lent.before) == 0 && memcmp(lent.after, marks.after, sizeof lent.after) == 0,
                "a mark is gone, round", round);
    }
}

static void report_is(const char *line)
{
    uint8_t out[CHANBOOK_REPORT_BYTES];
    char expected[2 * CHANBOOK_REPORT_BYTES];
    int bytes = sprintf(expected, "made,superseded,released,live\r\n%s\r\n", line);
    memset(out, 0xa5, sizeof out);
    require(chanbook_register_report(held.settings, held.figures, out) == (uint64_t)bytes, "another length of a report", (uint64_t)bytes);
    require(memcmp(out, expected, (size_t)bytes) == 0, "another report", (uint64_t)bytes);
}

static void reports(void)
{
    begin();
    report_is("0,0,0,0");
    require(release(0, 7) == CHANBOOK_CELL_NOT_LIVE && assign(1, 7, 1, 0) == CHANBOOK_NO_RASTER, "refused", 1);
    report_is("0,0,0,0");
    require(assign(2, 7, 1, 1) == CHANBOOK_DONE && assign(3, 8, 1, 1) == CHANBOOK_DONE && assign(4, 7, 2, 1) == CHANBOOK_DONE
                && release(5, 8) == CHANBOOK_DONE && assign(5, 8, 1, 1) == CHANBOOK_OLDER, "done", 5);
    report_is("3,1,1,1");
    every_cell_released();
    report_is("512,0,512,0");
    for (unsigned i = CHANBOOK_MADE; i <= CHANBOOK_RELEASED; i++)
        held.figures[i] = MOST;
    held.figures[CHANBOOK_LIVE] = 512;
    report_is("18446744073709551615,18446744073709551615,18446744073709551615,512");
}

/* ---- longer cell numbers */

static void longer_cell(uint64_t slot, chanbook_cell_number cell, uint64_t carrier)
{
    require(release(slot, cell) == CHANBOOK_CELL_NOT_LIVE, "a cell that is not live", cell);
    require(assign(slot + 1, cell, carrier, carrier + 1) == CHANBOOK_DONE, "a cell of its own", cell);
}

/* Cells that are one number in their last 16 bits, or in all but the first, are cells of their own and stand by number. */
static void longer_cell_numbers(void)
{
    static const chanbook_cell_number rising[] = { 7, 65535, 65536, 65543, 131079, 2147483655u, 4294901767u, 4294967295u };
    enum { COUNT = sizeof rising / sizeof *rising };
    begin();
    for (unsigned i = 0; i < COUNT; i++)
        longer_cell(2 * i, rising[i * 5 % COUNT], i * 5 % COUNT);
    for (unsigned i = 0; i < COUNT; i++)
        cell_is(i, rising[i], i, 1 + i);
    figures_are(16, COUNT, 0, 0, COUNT);
    require(release(16, 65543) == CHANBOOK_DONE, "a release", 16);
    cell_is(0, 7, 0, 1);
    cell_is(3, 131079, 4, 5);
    figures_are(17, COUNT, 0, 1, COUNT - 1);
}

/* ---- a stored register */

/* What a host stored of the register: 16 bits of each cell's number. */
static struct chanbook_stored_register stored_of(const struct chanbook_register *r)
{
    struct chanbook_stored_register stored;
    for (unsigned i = 0; i < CHANBOOK_LIVE_CELLS; i++)
        stored.cells[i] = (uint16_t)r->cells[i];
    memcpy(stored.carriers, r->carriers, sizeof stored.carriers);
    memcpy(stored.widths, r->widths, sizeof stored.widths);
    memcpy(stored.figures, r->figures, sizeof stored.figures);
    return stored;
}

static void widen(const struct chanbook_stored_register *stored, struct chanbook_register *r)
{
    chanbook_register_widened(group_from(LAST_SLOT), stored->cells, stored->carriers, stored->widths, stored->figures, r->settings, r->cells, r->carriers,
                              r->widths, r->figures);
}

/* An entry on one of so many cells, each a step above the one before. */
static uint64_t some_entry(struct chanbook_register *r, uint64_t row, uint64_t slot, uint64_t cells, uint64_t step)
{
    return chanbook_register_entry(r->settings, r->cells, r->carriers, r->widths, r->figures, slot, 1 + (row >> 40) % 8 / 7,
                                   (chanbook_cell_number)((row >> 20) % cells * step), row % 3279166, (row >> 8) % 400000 + 1);
}

/* One register gets every entry. The other is stored and read after each hundred of those with old cells, and then goes on with new ones: every answer
   and every number is the same. */
static void stored_and_gone_on_with(void)
{
    static struct chanbook_register one, other;
    uint64_t row = 7;
    begin();
    one = other = held;
    for (uint64_t slot = 0; slot < 8000; slot++) {
        uint64_t cells = slot < 5000 ? 300 : 700, step = slot < 5000 ? 219 : 6135667;
        row = row * 6364136223846793005u + 1442695040888963407u;
        require(some_entry(&one, row, slot, cells, step) == some_entry(&other, row, slot, cells, step), "another number in slot", slot);
        require(memcmp(&one, &other, sizeof one) == 0, "another register after slot", slot);
        if (slot < 5000 && slot % 100 == 99) {
            struct chanbook_stored_register stored = stored_of(&other);
            memset(&other, 0xa5, sizeof other);
            widen(&stored, &other);
        }
    }
    require(one.cells[511] > 65535 && one.figures[CHANBOOK_LIVE] == 512, "no longer cells", one.cells[511]);
}

/* Whatever numbers are stored: they stand in the arrays, between marks that stay. */
static void any_stored_numbers(void)
{
    static struct { uint64_t before[8]; struct chanbook_register r; uint64_t after[8]; } lent, marks;
    static struct chanbook_stored_register stored, kept;
    uint64_t row = 16;
    memset(&marks, 0xa5, sizeof marks);
    for (unsigned round = 0; round < 2000; round++) {
        for (unsigned i = 0; i < sizeof stored; i++) {
            row = row * 6364136223846793005u + 1442695040888963407u;
            ((unsigned char *)&stored)[i] = (unsigned char)(row >> 56);
        }
        lent = marks;
        kept = stored;
        widen(&stored, &lent.r);
        require(memcmp(&stored, &kept, sizeof stored) == 0, "the stored numbers, round", round);
        for (unsigned i = 0; i < CHANBOOK_LIVE_CELLS; i++)
            require(lent.r.cells[i] == stored.cells[i] && lent.r.carriers[i] == stored.carriers[i] && lent.r.widths[i] == stored.widths[i], "another cell, round",
                    round);
        require(memcmp(lent.r.figures, stored.figures, sizeof stored.figures) == 0, "other figures, round", round);
        require(memcmp(lent.before, marks.before, sizeof lent.before) == 0 && memcmp(lent.after, marks.after, sizeof lent.after) == 0,
                "a mark is gone, round", round);
    }
}

/* ---- whole MHz */

/* One before the slot any width is taken; at it and after it 23, behind 2, older and 14 and before 15; what stands there stays. */
static void widths_about_the_slot(void)
{
    begin_from(group_from(600));
    for (uint64_t i = 0; i < CHANBOOK_LIVE_CELLS; i++)
        require(assign(i, (chanbook_cell_number)(10 * (i + 1)), i, 1001 + i) == CHANBOOK_DONE, "an odd width before the slot", i);
    require(assign(599, 10, 5, 399999) == CHANBOOK_DONE, "one before the slot", 599);
    leaves_all(CHANBOOK_TOO_LARGE, LAST_SLOT + 1, CHANBOOK_ASSIGNMENT, 10, 5, 1500);
    leaves_all(CHANBOOK_OLDER, 599, CHANBOOK_ASSIGNMENT, 10, 5, 1500);
    leaves_the_rest(CHANBOOK_NO_RASTER, 600, CHANBOOK_ASSIGNMENT, 10, 5, 400001);
    leaves_the_rest(CHANBOOK_NO_RASTER, 601, CHANBOOK_ASSIGNMENT, 10, 3279166, 1500);
    leaves_the_rest(CHANBOOK_ODD_WIDTH, 602, CHANBOOK_ASSIGNMENT, 10, 5, 1);
    leaves_the_rest(CHANBOOK_ODD_WIDTH, 603, CHANBOOK_ASSIGNMENT, 11, 5, 399999);
    leaves_the_rest(CHANBOOK_NO_ROOM, 604, CHANBOOK_ASSIGNMENT, 11, 5, 400000);
    leaves_the_rest(CHANBOOK_CELL_NOT_LIVE, 605, CHANBOOK_RELEASE, 11, 5, 1);
    cell_is(0, 10, 5, 399999);
    cell_is(1, 20, 1, 1002);
    require(assign(606, 10, 5, 1000) == CHANBOOK_DONE && release(607, 20) == CHANBOOK_DONE, "a width in whole MHz, and a release", 606);
    figures_are(608, 514, 2, 1, 511);
    begin_from(group_from(0));
    leaves_the_rest(CHANBOOK_ODD_WIDTH, 0, CHANBOOK_ASSIGNMENT, 10, 5, 999);
    begin();
    leaves_the_rest(CHANBOOK_ODD_WIDTH, LAST_SLOT, CHANBOOK_ASSIGNMENT, 10, 5, 999);
}

/* A stored register keeps its odd widths, and takes the slot from the settings that it is read with. */
static void stored_odd_widths(void)
{
    begin();
    require(assign(0, 7, 100, 1500) == CHANBOOK_DONE, "an odd width", 0);
    struct chanbook_stored_register stored = stored_of(&held);
    chanbook_register_widened(group_from(1), stored.cells, stored.carriers, stored.widths, stored.figures, held.settings, held.cells, held.carriers,
                              held.widths, held.figures);
    leaves_the_rest(CHANBOOK_ODD_WIDTH, 1, CHANBOOK_ASSIGNMENT, 7, 100, 1500);
    cell_is(0, 7, 100, 1500);
    figures_are(2, 1, 0, 0, 1);
}

/* The four arrays of a block that was stored before E13 are the beginning of the block: put into a new register, they are gone on with under its settings. */
static void stored_before_the_settings(void)
{
    static struct { uint64_t cells[512], carriers[512], widths[512], figures[5]; } stored;
    begin();
    require(assign(0, 7, 100, 1500) == CHANBOOK_DONE, "an odd width", 0);
    memcpy(&stored, &held, sizeof stored);
    require(sizeof stored == 12328 && stored.cells[0] == 7 && stored.figures[CHANBOOK_LIVE] == 1, "the four arrays first", sizeof stored);
    begin_from(group_from(1));
    memcpy(&held, &stored, sizeof stored);
    cell_is(0, 7, 100, 1500);
    leaves_the_rest(CHANBOOK_ODD_WIDTH, 1, CHANBOOK_ASSIGNMENT, 7, 100, 1500);
    figures_are(2, 1, 0, 0, 1);
}

static void report_refused(void)
{
    uint8_t out[CHANBOOK_REPORT_BYTES];
    memset(out, 0xa5, sizeof out);
    require(chanbook_register_report(held.settings, held.figures, out) == 11 && memcmp(out, "refused,1\r\n", 11) == 0, "a report of no register", 11);
}

/* Every call gives 1 before anything else, and every number stays. */
static void not_made(void)
{
    struct chanbook_group_settings outside = group_from(5);
    outside.settings.my_pid = 3;
    const struct chanbook_group_settings none[] = { group_from(LAST_SLOT + 1), group_from(MOST), outside };
    for (unsigned i = 0; i < sizeof none / sizeof *none; i++) {
        marked(4);
        held.settings[CHANBOOK_SETTINGS_NUMBER] = i + 1;
        report_refused();
        leaves_all(CHANBOOK_UNMADE, 5, CHANBOOK_ASSIGNMENT, 7, 1, 1000);
        leaves_all(CHANBOOK_UNMADE, MOST, CHANBOOK_RELEASE, 9, 0, 0);
        begin_from(none[i]);
        require(held.settings[CHANBOOK_SETTINGS_NUMBER] == CHANBOOK_UNMADE, "settings outside their limits", i);
        leaves_all(CHANBOOK_UNMADE, 0, CHANBOOK_ASSIGNMENT, 7, 3279166, 1);
        report_refused();
        struct chanbook_fed fed = chanbook_feed(held.settings, held.cells, held.carriers, held.widths, held.figures, NULL, 0, NULL, 0, NULL, 0, NULL, 0,
                                                NULL, 0, NULL, 0);
        require(fed.refusal == CHANBOOK_UNMADE && fed.slot == 0 && fed.number == 0, "a list fed to no register", i);
    }
}

static void the_register(void)
{
    a_new_register();
    limits_of_an_assignment();
    limits_of_the_kind();
    slots();
    older_and_repeated();
    two_causes_at_once();
    one_more_than_512();
    every_cell_released();
    arrays_of_any_numbers();
    reports();
    longer_cell_numbers();
    stored_and_gone_on_with();
    any_stored_numbers();
    widths_about_the_slot();
    stored_odd_widths();
    stored_before_the_settings();
    not_made();
}

int main(void)
{
    ends();
    ends_of_64_bits();
    every_number();
    the_register();
    puts("planning_test: passed");
    return 0;
}
