/* Positions, conflicts within reach and the first free carrier as a host in C asks for them (document 02, E11). Expected answers are worked out by hand from
   the document. The places past a list, and all of them after a refusal, hold marks. */
#include "chanbook_planning.h"
#include <stdio.h>
#include <string.h>

#define MARK 0xfedcba9876543210u

static int failed;

static void check(const char *what, uint64_t got, uint64_t wanted) {
    if (got != wanted) {
        printf("%s: %llu, wanted %llu\n", what, (unsigned long long)got, (unsigned long long)wanted);
        failed = 1;
    }
}

static struct chanbook_register office;
static struct chanbook_position positions[512];
static uint64_t numbers[512];

static uint64_t enter(uint64_t slot, uint64_t kind, uint32_t cell, uint64_t carrier, uint64_t width, int64_t x, int64_t y) {
    return chanbook_placed_entry(office.settings, office.cells, office.carriers, office.widths, office.figures, positions, slot, kind, cell, carrier, width, x,
                                 y);
}

static uint64_t assign(uint64_t slot, uint32_t cell, uint64_t carrier, uint64_t width) {
    return enter(slot, CHANBOOK_ASSIGNMENT, cell, carrier, width, 7, 7);
}

static uint64_t place(uint64_t slot, uint32_t cell, int64_t x, int64_t y) {
    return enter(slot, CHANBOOK_POSITION, cell, MARK, MARK, x, y);
}

static struct chanbook_value conflicts(uint64_t carrier, uint64_t width, int64_t x, int64_t y, uint64_t distance) {
    for (int i = 0; i < 512; i++) numbers[i] = MARK;
    return chanbook_conflicts(office.settings, office.cells, office.carriers, office.widths, office.figures, positions, carrier, width, x, y, distance,
                              numbers);
}

static struct chanbook_value first_free(uint64_t first, uint64_t last, uint64_t width, int64_t x, int64_t y, uint64_t distance) {
    return chanbook_first_free(office.settings, office.cells, office.carriers, office.widths, office.figures, positions, first, last, width, x, y, distance);
}

/* The list is these numbers, and marks stand in every other place. */
static void lists(const char *what, struct chanbook_value answer, uint64_t count, const uint64_t *wanted) {
    check(what, answer.refusal, 0);
    check(what, answer.value, count);
    for (uint64_t i = 0; i < 512; i++) check(what, numbers[i], i < count ? wanted[i] : MARK);
}

static void refused(const char *what, struct chanbook_value answer, uint64_t number) {
    check(what, answer.refusal, number);
    check(what, answer.value, 0);
    for (int i = 0; i < 512; i++) check(what, numbers[i], MARK);
}

/* A register of a group of three whose widths are in whole MHz from the last slot on. */
static void begin(void) {
    struct chanbook_group_settings group;
    memset(&group, 0, sizeof group);
    group.settings.process_count = group.settings.replica_count = 3;
    group.settings.alive_replicas = 7;
    group.whole_mhz_from = 9223372036854775806u;
    memset(&office, 0, sizeof office);
    chanbook_register_new(group, office.settings, office.cells, office.carriers, office.widths, office.figures);
}

/* Entries of positions: 2, older, 21, then 16. */
static void entries(void) {
    begin();
    memset(positions, 0xff, sizeof positions);
    chanbook_positions_new(positions);
    check("16", place(0, 3, 0, 0), 16);
    check("16 is seen", office.figures[CHANBOOK_NEXT_SLOT], 1);
    check("21 before 16", place(1, 3, 2000001, 0), 21);
    check("21 is seen", office.figures[CHANBOOK_NEXT_SLOT], 2);
    check("older before 21", place(1, 3, 0, -2000001), 64);
    check("2 before older", place(9223372036854775807u, 3, 0, -2000001), 2);
    check("assigned", assign(2, 3, 630000, 20000), 0);
    check("no position yet", positions[0].given, 0);
    check("at the limits", place(3, 3, -2000000, 2000000), 0);
    check("past the limit", place(4, 3, -2000000, 2000001), 21);
    check("placed", positions[0].given != 0 && positions[0].x == -2000000 && positions[0].y == 2000000, 1);
    check("a lower cell", assign(5, 1, 630000, 20000), 0);
    check("it has none", positions[0].given, 0);
    check("the other keeps its own", positions[1].given != 0 && positions[1].x == -2000000, 1);
    check("assigned again", assign(6, 3, 632000, 20000), 0);
    check("kept", positions[1].given != 0 && positions[1].y == 2000000, 1);
    check("released", enter(7, CHANBOOK_RELEASE, 3, 0, 0, 0, 0), 0);
    check("assigned a third time", assign(8, 3, 632000, 20000), 0);
    check("dropped", positions[1].given, 0);
    check("figures", office.figures[CHANBOOK_MADE] == 4 && office.figures[CHANBOOK_SUPERSEDED] == 1 && office.figures[CHANBOOK_RELEASED] == 1, 1);
    check("another kind", enter(9, 4, 3, 1, 1, 0, 0), 14);
}

/* Questions of 1000, -2000. Cell 3, 300 m east and 400 m south of there, has 3,440,000 up to 3,460,000 kHz, and cell 7, anywhere, 3,470,000 up to 3,490,000 kHz. */
static void questions(void) {
    begin();
    chanbook_positions_new(positions);
    check("cell 7", assign(0, 7, 632000, 20000), 0);
    check("cell 3", assign(1, 3, 630000, 20000), 0);
    check("its position", place(2, 3, 1300, -2400), 0);
    const uint64_t both[] = {3, 7}, one[] = {7};
    lists("exactly at the distance", conflicts(631000, 20000, 1000, -2000, 500), 2, both);
    lists("one metre more", conflicts(631000, 20000, 1000, -2000, 499), 1, one);
    lists("touching", conflicts(631000, 10000, 1000, -2000, 500), 0, both);
    lists("half a kHz more", conflicts(631000, 10001, 1000, -2000, 500), 2, both);
    refused("21 before 14", conflicts(3279166, 0, -2000001, 0, 0), 21);
    refused("a distance too long", conflicts(631000, 10000, 0, 0, 6000001), 21);
    refused("14", conflicts(3279166, 10000, -2000000, 2000000, 6000000), 14);
    refused("no width", conflicts(631000, 0, 0, 0, 0), 14);
    lists("x and y exchanged", conflicts(631000, 20000, -2000, 1000, 500), 1, one);
    check("free", first_free(630998, 631001, 10000, 1000, -2000, 500).value, 631000);
    check("free where x and y are exchanged", first_free(629999, 630001, 10000, -2000, 1000, 500).value, 629999);
    check("22", first_free(630998, 630999, 10000, 1000, -2000, 500).refusal, 22);
    check("22 of an empty range", first_free(631001, 631000, 10000, 1000, -2000, 500).refusal, 22);
    check("14 before 22", first_free(631001, 3279166, 10000, 1000, -2000, 500).refusal, 14);
    check("21 before 14", first_free(3279166, 631000, 0, 2000001, 0, 500).refusal, 21);
    check("over the joint of two ranges", first_free(599999, 600000, 400000, 0, 0, 0).value, 599999);
    for (unsigned mark = 16; mark <= 18; mark++) {
        uint64_t number = mark == 17 ? 17 : 1;
        office.settings[0] = mark;
        refused("a register that is not made", conflicts(631000, 10000, 9000000, 0, 500), number);
        check("nor an entry", place(9, 3, 0, 0), number);
        check("nor a free carrier", first_free(0, 3279165, 1, 0, 0, 0).refusal, number);
    }
    office.settings[0] = 0;
}

int main(void) {
    entries();
    questions();
    if (!failed) printf("positions, conflicts and free carriers: as document 02 says\n");
    return failed;
}
