/* chanbook_feed against entries that are applied one by one, with a copy of the register: lists that begin before, at and past the next slot, refused
   entries on the way, 8,192 and 8,193 entries, each refusal of a list, which leaves the register.
   Build: cc -I crates/host/include -I crates/planning_host/include crates/planning_host/test/feed_test.c target/staticlib/libplanning_host.a -o feed_test */
#include <stdio.h>
#include <stdlib.h>
#include <string.h>

#include "chanbook_planning.h"

enum { MOST = CHANBOOK_JOIN_PLACES + 1 };

struct office {
    uint64_t settings[2], cells[512], carriers[512], widths[512], figures[5];
};

static size_t count;
static uint64_t slots[MOST], values[MOST], kinds[MOST], carriers[MOST], widths[MOST];
static chanbook_cell_number cells[MOST];
static uint64_t state = 10;

static void require(int so, const char *what, uint64_t of)
{
    if (!so) {
        fprintf(stderr, "feed_test: %s, %llu\n", what, (unsigned long long)of);
        exit(1);
    }
}

static uint64_t below(uint64_t n)
{
    state ^= state << 13;
    state ^= state >> 7;
    state ^= state << 17;
    return state % n;
}

/* from one slot on the entries with an odd width are refused with 23 */
static void begin(struct office *o)
{
    struct chanbook_group_settings group;
    memset(&group, 0, sizeof group);
    group.settings.process_count = group.settings.replica_count = 3;
    group.settings.alive_replicas = 7;
    group.whole_mhz_from = below(2) ? below(300) : CHANBOOK_LAST_SLOT;
    chanbook_register_new(group, o->settings, o->cells, o->carriers, o->widths, o->figures);
}

/* the entry of a slot is the same wherever it stands; some are refused with 14, and releases of cells that are not live with 16 */
static void fill(uint64_t first, size_t n, uint64_t pool)
{
    count = n;
    for (size_t i = 0; i < n; i++) {
        uint64_t slot = first + i, mixed = (slot * 2654435761u) >> 7;
        slots[i] = slot;
        values[i] = slot * 3;
        kinds[i] = mixed % 11 == 0 ? 7 : 1 + mixed % 3 / 2;
        /* numbers on both sides of 2^16 */
        cells[i] = (chanbook_cell_number)(65536 - pool / 2 + mixed % pool);
        carriers[i] = mixed % 3279166;
        widths[i] = mixed % 13 == 0 ? 0 : mixed % 2 ? 1 + mixed % 400000 : 1000 * (1 + mixed % 400);
    }
}

static struct chanbook_fed feed(struct office *o, size_t value_count, size_t kind_count, size_t cell_count, size_t carrier_count, size_t width_count)
{
    return chanbook_feed(o->settings, o->cells, o->carriers, o->widths, o->figures, slots, count, values, value_count, kinds, kind_count, cells,
                         cell_count, carriers, carrier_count, widths, width_count);
}

static struct chanbook_fed feed_all(struct office *o)
{
    return feed(o, count, count, count, count, count);
}

/* the same, an entry at a time */
static void one_by_one(struct office *o, struct chanbook_fed *first)
{
    memset(first, 0, sizeof *first);
    for (size_t i = 0; i < count; i++) {
        uint64_t number = chanbook_register_entry(o->settings, o->cells, o->carriers, o->widths, o->figures, slots[i], kinds[i], cells[i], carriers[i],
                                                  widths[i]);
        if (number != 0 && number != CHANBOOK_OLDER && first->number == 0) {
            first->slot = slots[i];
            first->number = number;
        }
    }
}

static void agrees(struct office *o)
{
    struct office other = *o;
    struct chanbook_fed first, answer = feed_all(o);
    one_by_one(&other, &first);
    require(answer.refusal == 0, "refused", answer.refusal);
    require(answer.slot == first.slot && answer.number == first.number, "another first refused slot", answer.slot);
    require(memcmp(o, &other, sizeof other) == 0, "another register", slots[0]);
}

static void refused(struct office *o, struct chanbook_fed answer, const struct office *before, uint64_t number)
{
    require(answer.refusal == number && answer.slot == 0 && answer.number == 0, "another refusal than", number);
    require(memcmp(o, before, sizeof *before) == 0, "the register is changed", number);
}

static void random_lists(void)
{
    for (int turn = 0; turn < 300; turn++) {
        struct office o;
        begin(&o);
        for (int lists = 0; lists < 6; lists++) {
            uint64_t next = o.figures[0], back = below(20);
            fill(next > back ? next - back : 0, below(turn % 10 == 0 ? 700 : 40), turn % 2 ? 1000 : 12);
            agrees(&o);
        }
    }
}

static void refusals(void)
{
    struct office o, before;
    begin(&o);
    fill(0, 30, 12);
    agrees(&o);
    before = o;
    fill(31, 4, 12);
    refused(&o, feed_all(&o), &before, 19);
    fill(30, 4, 12);
    refused(&o, feed(&o, 3, 4, 4, 4, 4), &before, 18);
    refused(&o, feed(&o, 4, 3, 4, 4, 4), &before, 18);
    refused(&o, feed(&o, 4, 4, 3, 4, 4), &before, 18);
    refused(&o, feed(&o, 4, 4, 4, 3, 4), &before, 18);
    refused(&o, feed(&o, 4, 4, 4, 4, 3), &before, 18);
    slots[3]++;
    refused(&o, feed_all(&o), &before, 18);
    values[1] = 9223372036854775808u;
    refused(&o, feed_all(&o), &before, 2);
    fill(31, 4, 12);
    slots[3] = 9223372036854775807u;
    refused(&o, feed_all(&o), &before, 2);
    fill(0, MOST, 400);
    refused(&o, feed_all(&o), &before, 18);
    fill(0, MOST - 1, 400);
    agrees(&o);
    count = 0;
    before = o;
    refused(&o, feed_all(&o), &before, 0);
}

/* ---- a register with positions */

struct placed {
    struct office office;
    struct chanbook_position positions[512];
};

static int64_t xs[MOST], ys[MOST];

static struct chanbook_fed placed_feed(struct placed *p, size_t value_count, size_t x_count, size_t y_count)
{
    struct office *o = &p->office;
    return chanbook_placed_feed(o->settings, o->cells, o->carriers, o->widths, o->figures, p->positions, slots, count, values, value_count, kinds, count,
                                cells, count, carriers, count, widths, count, xs, x_count, ys, y_count);
}

/* every third entry is a position, some of them outside the limits */
static void fill_placed(uint64_t first, size_t n, uint64_t pool)
{
    fill(first, n, pool);
    for (size_t i = 0; i < n; i++) {
        uint64_t mixed = (slots[i] * 11400714819323198485u) >> 20;
        if (mixed % 3 == 0) kinds[i] = CHANBOOK_POSITION;
        xs[i] = (int64_t)(mixed % 4000003) - 2000001;
        ys[i] = mixed % 17 == 0 ? -2000001 : -(int64_t)(mixed % 2000001);
    }
}

static void placed_agrees(struct placed *p)
{
    struct placed other = *p;
    struct chanbook_fed first = {0, 0, 0}, answer = placed_feed(p, count, count, count);
    for (size_t i = 0; i < count; i++) {
        struct office *o = &other.office;
        uint64_t number = chanbook_placed_entry(o->settings, o->cells, o->carriers, o->widths, o->figures, other.positions, slots[i], kinds[i], cells[i],
                                                carriers[i], widths[i], xs[i], ys[i]);
        if (number != 0 && number != CHANBOOK_OLDER && first.number == 0) {
            first.slot = slots[i];
            first.number = number;
        }
    }
    require(answer.refusal == 0, "refused with positions", answer.refusal);
    require(answer.slot == first.slot && answer.number == first.number, "another first refused slot with positions", answer.slot);
    require(memcmp(p, &other, sizeof other) == 0, "another register with positions", slots[0]);
}

static void placed_refused(struct placed *p, struct chanbook_fed answer, const struct placed *before, uint64_t number)
{
    require(answer.refusal == number && answer.slot == 0 && answer.number == 0, "another refusal with positions than", number);
    require(memcmp(p, before, sizeof *before) == 0, "the register with positions is changed", number);
}

static void placed_lists(void)
{
    static struct placed p, before;
    for (int turn = 0; turn < 200; turn++) {
        begin(&p.office);
        chanbook_positions_new(p.positions);
        for (int lists = 0; lists < 6; lists++) {
            uint64_t next = p.office.figures[0], back = below(20);
            fill_placed(next > back ? next - back : 0, below(turn % 10 == 0 ? 700 : 40), turn % 2 ? 1000 : 12);
            placed_agrees(&p);
        }
    }
    before = p;
    fill_placed(p.office.figures[0], 4, 12);
    placed_refused(&p, placed_feed(&p, 3, 4, 4), &before, 18);
    placed_refused(&p, placed_feed(&p, 4, 3, 4), &before, 18);
    placed_refused(&p, placed_feed(&p, 4, 4, 3), &before, 18);
    fill_placed(p.office.figures[0] + 1, 4, 12);
    placed_refused(&p, placed_feed(&p, 4, 4, 4), &before, 19);
    placed_refused(&p, placed_feed(&p, 4, 4, 5), &before, 18);
    values[3] = 9223372036854775808u;
    placed_refused(&p, placed_feed(&p, 4, 4, 5), &before, 2);
    fill_placed(0, MOST, 400);
    placed_refused(&p, placed_feed(&p, MOST, MOST, MOST), &before, 18);
    p.office.settings[0] = before.office.settings[0] = 5;
    placed_refused(&p, placed_feed(&p, MOST, MOST, MOST), &before, 1);
    p.office.settings[0] = before.office.settings[0] = 17;
    placed_refused(&p, placed_feed(&p, MOST, MOST, MOST), &before, 17);
}

/* An office that was away joins two neighbours' lists and feeds the join: it holds the register of the office that heard every slot. */
static void catches_up(void)
{
    static uint64_t a_slots[4096], a_values[4096], joined_slots[8192], joined_values[8192];
    struct office present, away;
    begin(&present);
    away = present;
    fill(0, 100, 300);
    feed_all(&present);
    feed_all(&away);
    fill(100, 4000, 300);
    memcpy(a_slots, slots, sizeof a_slots);
    memcpy(a_values, values, sizeof a_values);
    feed_all(&present);
    fill(4000, 4000, 300);
    feed_all(&present);
    struct chanbook_value both = chanbook_join(slots, 4000, values, 4000, a_slots, 4000, a_values, 4000, joined_slots, 8192, joined_values, 8192);
    require(both.refusal == 0 && both.value == 7900, "not joined", both.refusal);
    fill(100, 7900, 300);
    require(memcmp(slots, joined_slots, 7900 * sizeof *slots) == 0 && memcmp(values, joined_values, 7900 * sizeof *values) == 0, "another join", both.value);
    agrees(&away);
    require(memcmp(&away, &present, sizeof away) == 0, "the offices hold different registers", away.figures[0]);
}

int main(void)
{
    random_lists();
    refusals();
    placed_lists();
    catches_up();
    puts("feed_test: passed");
    return 0;
}
