/* chanbook_join with marks in the lent places: every place past the result, and all after each refusal, keep their mark. 8,191, 8,192 and 8,193 places,
   lists of 4,096 and 4,097 entries, every refusal.
   Build: cc -I crates/host/include -I crates/planning_host/include crates/planning_host/test/join_test.c target/staticlib/libplanning_host.a -o join_test */
#include <stdio.h>
#include <stdlib.h>

#include "chanbook_planning.h"

enum { PLACES = CHANBOOK_JOIN_PLACES + 2 };

static const uint64_t LAST_SLOT = 9223372036854775806u, LARGEST_VALUE = 9223372036854775807u;

/* a list, with more room than a list may have entries */
struct list {
    size_t slots, values;
    uint64_t slot[CHANBOOK_LIST_ENTRIES + 1], value[CHANBOOK_LIST_ENTRIES + 1];
};

static struct list a, b;
static uint64_t slots[PLACES], values[PLACES];

static void require(int so, const char *what, uint64_t of)
{
    if (!so) {
        fprintf(stderr, "join_test: %s, %llu\n", what, (unsigned long long)of);
        exit(1);
    }
}

static uint64_t mark(size_t place)
{
    return 1000000007u * (place + 1);
}

/* the value of a slot, wherever it stands */
static uint64_t value_of(uint64_t slot)
{
    return (slot * 7 + 3) % 1000;
}

static void fill(struct list *l, uint64_t begin, size_t count)
{
    l->slots = l->values = count;
    for (size_t i = 0; i < count; i++) {
        l->slot[i] = begin + i;
        l->value[i] = value_of(begin + i);
    }
}

static struct chanbook_value join(size_t slot_places, size_t value_places)
{
    for (size_t i = 0; i < PLACES; i++) {
        slots[i] = mark(i);
        values[i] = mark(i) + 1;
    }
    return chanbook_join(a.slot, a.slots, a.value, a.values, b.slot, b.slots, b.value, b.values, slots, slot_places, values, value_places);
}

static void kept_from(size_t place)
{
    for (; place < PLACES; place++)
        require(slots[place] == mark(place) && values[place] == mark(place) + 1, "a place is changed", place);
}

static void refused(uint64_t number, size_t slot_places, size_t value_places)
{
    struct chanbook_value answer = join(slot_places, value_places);
    require(answer.refusal == number, "another refusal than", number);
    require(answer.value == 0, "a refusal with a count", answer.value);
    kept_from(0);
}

static void joined(uint64_t begin, size_t count, size_t places)
{
    struct chanbook_value answer = join(places, places);
    require(answer.refusal == 0, "refused", answer.refusal);
    require(answer.value == count, "another count", answer.value);
    for (size_t i = 0; i < count; i++)
        require(slots[i] == begin + i && values[i] == value_of(begin + i), "another entry", i);
    kept_from(count);
}

/* 8,191 places are too few, of slots or of values; 8,192 and 8,193 are enough. */
static void places(void)
{
    fill(&a, 5, 3);
    fill(&b, 8, 2);
    joined(5, 5, CHANBOOK_JOIN_PLACES);
    joined(5, 5, CHANBOOK_JOIN_PLACES + 1);
    refused(18, CHANBOOK_JOIN_PLACES - 1, CHANBOOK_JOIN_PLACES - 1);
    refused(18, CHANBOOK_JOIN_PLACES - 1, CHANBOOK_JOIN_PLACES);
    refused(18, CHANBOOK_JOIN_PLACES, CHANBOOK_JOIN_PLACES - 1);
    refused(18, 0, CHANBOOK_JOIN_PLACES);
    refused(18, 5, 5);
}

/* With 8,191 places, of slots, of values or of both: 2 comes before 18, and 18 before 19 and 20. */
static void too_few(void)
{
    size_t few = CHANBOOK_JOIN_PLACES - 1, all = CHANBOOK_JOIN_PLACES;
    fill(&a, 5, 3);
    for (int of = 0; of < 3; of++) {
        size_t slot_places = of == 1 ? all : few, value_places = of == 2 ? all : few;
        fill(&b, 9, 2);
        refused(18, slot_places, value_places);
        b.value[1] = LARGEST_VALUE + 1;
        refused(2, slot_places, value_places);
        fill(&b, 7, 2);
        b.value[0]++;
        refused(18, slot_places, value_places);
    }
}

static void longest(void)
{
    fill(&a, 0, CHANBOOK_LIST_ENTRIES);
    fill(&b, CHANBOOK_LIST_ENTRIES, CHANBOOK_LIST_ENTRIES);
    joined(0, CHANBOOK_JOIN_PLACES, CHANBOOK_JOIN_PLACES);
    joined(0, CHANBOOK_JOIN_PLACES, CHANBOOK_JOIN_PLACES + 1);
    refused(18, CHANBOOK_JOIN_PLACES - 1, CHANBOOK_JOIN_PLACES);
    fill(&b, CHANBOOK_LIST_ENTRIES - 1, CHANBOOK_LIST_ENTRIES);
    joined(0, CHANBOOK_JOIN_PLACES - 1, CHANBOOK_JOIN_PLACES);
    b.value[0]++;
    refused(20, CHANBOOK_JOIN_PLACES, CHANBOOK_JOIN_PLACES);
    fill(&b, CHANBOOK_LIST_ENTRIES + 1, CHANBOOK_LIST_ENTRIES);
    refused(19, CHANBOOK_JOIN_PLACES, CHANBOOK_JOIN_PLACES);
    fill(&b, 0, CHANBOOK_LIST_ENTRIES);
    joined(0, CHANBOOK_LIST_ENTRIES, CHANBOOK_JOIN_PLACES);
    b.value[CHANBOOK_LIST_ENTRIES - 1]++;
    refused(20, CHANBOOK_JOIN_PLACES, CHANBOOK_JOIN_PLACES);
    fill(&b, 0, CHANBOOK_LIST_ENTRIES + 1);
    refused(18, CHANBOOK_JOIN_PLACES, CHANBOOK_JOIN_PLACES);
    b.value[CHANBOOK_LIST_ENTRIES] = LARGEST_VALUE + 1;
    refused(2, CHANBOOK_JOIN_PLACES, CHANBOOK_JOIN_PLACES);
}

/* Each refusal, and the earlier of two causes, with so many places, which are enough. */
static void numbers(size_t all)
{
    fill(&a, 5, 3);
    fill(&b, 8, 2);
    b.values = 1;
    refused(18, all, all);
    b.values = 3;
    b.value[2] = LARGEST_VALUE + 1;
    refused(2, all, all);
    fill(&b, 9, 2);
    refused(19, all, all);
    b.slot[1]++;
    refused(18, all, all);
    b.value[1] = LARGEST_VALUE + 1;
    refused(2, all, all);
    refused(2, 0, 0);
    fill(&b, 7, 2);
    b.value[0]++;
    refused(20, all, all);
    b.value[1] = LARGEST_VALUE;
    refused(20, all, all);
    fill(&a, LAST_SLOT - 2, 3);
    fill(&b, LAST_SLOT - 3, 1);
    joined(LAST_SLOT - 3, 4, all);
    fill(&b, LAST_SLOT + 1, 1);
    refused(2, all, all);
    fill(&a, 5, 3);
    a.slot[1] = UINT64_MAX;
    fill(&b, 8, 1);
    refused(2, all, all);
}

static void empty(void)
{
    fill(&a, 0, 0);
    fill(&b, 0, 0);
    joined(0, 0, CHANBOOK_JOIN_PLACES);
    fill(&b, 70, 4);
    joined(70, 4, CHANBOOK_JOIN_PLACES);
    fill(&a, 70, 4);
    fill(&b, 0, 0);
    joined(70, 4, CHANBOOK_JOIN_PLACES);
    refused(18, CHANBOOK_JOIN_PLACES - 1, CHANBOOK_JOIN_PLACES);
    struct chanbook_value none = chanbook_join(NULL, 0, NULL, 0, NULL, 0, NULL, 0, slots, PLACES, values, PLACES);
    require(none.refusal == 0 && none.value == 0, "nothing joined to nothing", none.value);
}

/* Every way in which two short lists can lie. */
static void meeting(void)
{
    for (uint64_t begin = 0; begin < 8; begin++)
        for (size_t count = 1; count < 5; count++)
            for (uint64_t other = 0; other < 8; other++)
                for (size_t more = 1; more < 5; more++) {
                    uint64_t least = begin < other ? begin : other, end = begin + count > other + more ? begin + count : other + more;
                    fill(&a, begin, count);
                    fill(&b, other, more);
                    if (begin + count < other || other + more < begin)
                        refused(19, CHANBOOK_JOIN_PLACES, CHANBOOK_JOIN_PLACES);
                    else
                        joined(least, end - least, CHANBOOK_JOIN_PLACES);
                }
}

int main(void)
{
    places();
    longest();
    numbers(CHANBOOK_JOIN_PLACES);
    numbers(CHANBOOK_JOIN_PLACES + 1);
    too_few();
    empty();
    meeting();
    puts("join_test: passed");
    return 0;
}
