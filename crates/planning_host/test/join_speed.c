/* How long chanbook_join takes on two lists of 4,096 entries that touch, beside a plain copy of the result, in one run: the best of 400 rounds of each.
   Build: cc -O2 -I crates/host/include -I crates/planning_host/include crates/planning_host/test/join_speed.c \
     target/staticlib/libplanning_host.a -o join_speed */
#define _POSIX_C_SOURCE 200809L
#include <stdio.h>
#include <string.h>
#include <time.h>

#include "chanbook_planning.h"

enum { TURNS = 20, ROUNDS = 400 };

static uint64_t a_slots[CHANBOOK_LIST_ENTRIES], a_values[CHANBOOK_LIST_ENTRIES], b_slots[CHANBOOK_LIST_ENTRIES], b_values[CHANBOOK_LIST_ENTRIES];
static uint64_t slots[CHANBOOK_JOIN_PLACES], values[CHANBOOK_JOIN_PLACES], copied_slots[CHANBOOK_JOIN_PLACES], copied_values[CHANBOOK_JOIN_PLACES];

static double nanoseconds(void)
{
    struct timespec now;
    clock_gettime(CLOCK_MONOTONIC, &now);
    return now.tv_sec * 1e9 + now.tv_nsec;
}

static void join(void)
{
    chanbook_join(a_slots, CHANBOOK_LIST_ENTRIES, a_values, CHANBOOK_LIST_ENTRIES, b_slots, CHANBOOK_LIST_ENTRIES, b_values, CHANBOOK_LIST_ENTRIES, slots,
                  CHANBOOK_JOIN_PLACES, values, CHANBOOK_JOIN_PLACES);
}

/* by way of a pointer that the compiler knows nothing of, so that no copy is left out */
static void *(*volatile copy)(void *, const void *, size_t) = memcpy;

static void plain_copy(void)
{
    copy(copied_slots, slots, sizeof slots);
    copy(copied_values, values, sizeof values);
}

static double best_of(void (*work)(void))
{
    double best = 1e18;
    for (int round = 0; round < ROUNDS; round++) {
        double begin = nanoseconds();
        for (int turn = 0; turn < TURNS; turn++)
            work();
        double each = (nanoseconds() - begin) / TURNS;
        best = each < best ? each : best;
    }
    return best;
}

int main(void)
{
    for (uint64_t i = 0; i < CHANBOOK_LIST_ENTRIES; i++) {
        a_slots[i] = i;
        b_slots[i] = CHANBOOK_LIST_ENTRIES + i;
        a_values[i] = 7 * i;
        b_values[i] = 9 * i;
    }
    double joined = best_of(join), copied = best_of(plain_copy);
    printf("join %.0f ns, copy of the result %.0f ns, ratio %.2f\n", joined, copied, joined / copied);
    return memcmp(slots, copied_slots, sizeof slots) != 0;
}
