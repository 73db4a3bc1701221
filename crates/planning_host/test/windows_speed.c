/* How long chanbook_windows_ask takes with 128 windows, asked of minutes in all of them and between them, beside a plain C loop over the same minutes, in one
   run: the best of 400 rounds of each. And chanbook_windows_new, which checks 128 windows.
   Build: cc -O2 -I crates/host/include -I crates/planning_host/include crates/planning_host/test/windows_speed.c target/staticlib/libplanning_host.a \
     -o windows_speed */
#define _POSIX_C_SOURCE 200809L
#include <stdio.h>
#include <time.h>

#include "chanbook_planning.h"

enum { TURNS = 1000, ROUNDS = 400 };

static struct chanbook_group_settings group;
static struct chanbook_kept_windows kept;
static uint64_t sum, plain_sum;

static double nanoseconds(void)
{
    struct timespec now;
    clock_gettime(CLOCK_MONOTONIC, &now);
    return now.tv_sec * 1e9 + now.tv_nsec;
}

/* Windows of 30 minutes, an hour apart, from the last to the first. */
static void fill(void)
{
    group.settings.process_count = group.settings.replica_count = 3;
    group.settings.alive_replicas = 7;
    group.whole_mhz_from = CHANBOOK_LAST_SLOT;
    group.windows.count = CHANBOOK_WINDOWS;
    for (uint64_t i = 0; i < CHANBOOK_WINDOWS; i++) {
        group.windows.places[i].start = chanbook_date_of(29000000 + 60 * (CHANBOOK_WINDOWS - i)).date;
        group.windows.places[i].end = chanbook_date_of(29000030 + 60 * (CHANBOOK_WINDOWS - i)).date;
    }
}

static struct chanbook_window_answer plain(uint64_t minute)
{
    uint64_t next = UINT64_C(4223371680);
    if (minute >= UINT64_C(4223371680))
        return (struct chanbook_window_answer){ 17, 0 };
    for (uint64_t i = 0; i < kept.figures[1]; i++) {
        if (kept.starts[i] <= minute && minute < kept.ends[i])
            return (struct chanbook_window_answer){ CHANBOOK_INSIDE, 0 };
        if (kept.starts[i] > minute && kept.starts[i] < next)
            next = kept.starts[i];
    }
    if (next < UINT64_C(4223371680))
        return (struct chanbook_window_answer){ CHANBOOK_NEXT, next };
    return (struct chanbook_window_answer){ CHANBOOK_NONE, 0 };
}

static void ask(void)
{
    sum = 0;
    for (uint64_t turn = 0; turn < TURNS; turn++) {
        struct chanbook_window_answer a = chanbook_windows_ask(kept.starts, kept.ends, kept.figures, 29000000 + turn * 8);
        sum += a.answer + a.minute;
    }
}

static void ask_plain(void)
{
    plain_sum = 0;
    for (uint64_t turn = 0; turn < TURNS; turn++) {
        struct chanbook_window_answer a = plain(29000000 + turn * 8);
        plain_sum += a.answer + a.minute;
    }
}

static void make(void)
{
    for (int turn = 0; turn < TURNS; turn++)
        chanbook_windows_new(group, kept.starts, kept.ends, kept.figures);
}

static double best_of(void (*work)(void), int rounds)
{
    double best = 1e18;
    for (int round = 0; round < rounds; round++) {
        double begin = nanoseconds();
        work();
        double each = (nanoseconds() - begin) / TURNS;
        best = each < best ? each : best;
    }
    return best;
}

int main(void)
{
    fill();
    double made = best_of(make, 20), asked = best_of(ask, ROUNDS), plainly = best_of(ask_plain, ROUNDS);
    printf("ask %.1f ns, a plain loop %.1f ns, ratio %.2f; check of 128 windows %.0f ns\n", asked, plainly, asked / plainly, made);
    return sum != plain_sum;
}
