/* A group of three over the exported functions, in Paxos, whose calls go to libdirect.a, and in EPaxos and SwiftPaxos, most of whose calls go to
   libdirect_fast.a: two slots are committed by all, a read is served, refusals leave every byte. What calls should answer is in recorded_test.c.
   Build: cc -I crates/host/include crates/host/test/host_test.c target/staticlib/libhost.a target/staticlib/libdirect.a \
     target/staticlib/libdirect_fast.a -o host_test */
#include <stddef.h>
#include <stdio.h>
#include <stdlib.h>
#include <string.h>

#include "chanbook_shard.h"

/* The engine has rows of numbers in place of the structs that are lent to it. Each begins where a part of the struct does. */
#define BEGINS_AT(place, numbers) _Static_assert((place) == sizeof(uint64_t[numbers]), "a row at another place")
BEGINS_AT(offsetof(struct chanbook_shard, settings.committers), 10);
BEGINS_AT(offsetof(struct chanbook_shard, settings.delegates), 74);
BEGINS_AT(offsetof(struct chanbook_shard, state.rounds.core), 138);
BEGINS_AT(offsetof(struct chanbook_shard, state.rounds.fast), 156);
BEGINS_AT(offsetof(struct chanbook_shard, state.rounds.fast.fast_proposer_to_v), 161);
BEGINS_AT(offsetof(struct chanbook_shard, state.rounds.fast.epaxos_proposer_scores), 225);
BEGINS_AT(offsetof(struct chanbook_shard, state.rounds.fast.swift_proposer_scores), 289);
BEGINS_AT(offsetof(struct chanbook_shard, state.table.reads), 353);
BEGINS_AT(offsetof(struct chanbook_shard, state.table.served), 993);
BEGINS_AT(sizeof(struct chanbook_shard), 1505);
BEGINS_AT(sizeof(struct chanbook_call), 25);
BEGINS_AT(offsetof(struct chanbook_reply, first), 1);
BEGINS_AT(offsetof(struct chanbook_reply, second), 21);
BEGINS_AT(offsetof(struct chanbook_reply, third), 41);
BEGINS_AT(offsetof(struct chanbook_reply, commit), 61);
BEGINS_AT(sizeof(struct chanbook_reply), 66);

enum { MEMBERS = 3, WAITING = 4096 };

static struct chanbook_shard shards[MEMBERS];
static struct { uint64_t member; struct chanbook_message message; } waiting[WAITING];
static unsigned from, until, commits[MEMBERS];
static uint64_t committed[MEMBERS][8];

static void require(int so, const char *what)
{
    if (!so) {
        fprintf(stderr, "host_test: %s\n", what);
        exit(1);
    }
}

static void post(uint64_t source, const struct chanbook_outgoing *o)
{
    for (uint64_t p = 0; p < MEMBERS; p++)
        if ((o->kind == CHANBOOK_TO_ONE && o->to == p) || (o->kind == CHANBOOK_TO_ALL && p != source)) {
            require(until < WAITING, "too many messages");
            waiting[until].member = p;
            waiting[until++].message = o->message;
        }
}

static int is_empty(const struct chanbook_reply *r)
{
    return r->first.kind == CHANBOOK_NO_MESSAGE && r->second.kind == CHANBOOK_NO_MESSAGE && r->third.kind == CHANBOOK_NO_MESSAGE
        && !r->commit.given && r->served_count == 0;
}

/* As a host makes the call. One reply is filled again and again. */
static struct chanbook_reply call_on(struct chanbook_shard *s, struct chanbook_call c)
{
    static struct chanbook_reply r;
    struct chanbook_shard before = *s;
    chanbook_call(s, &c, &r);
    if (r.outcome != 0) {
        require(memcmp(&before, s, sizeof before) == 0, "a refusal changed the shard");
        require(is_empty(&r), "a refusal has a reply");
    }
    return r;
}

static struct chanbook_reply call(uint64_t member, struct chanbook_call c)
{
    struct chanbook_reply r = call_on(&shards[member], c);
    post(member, &r.first);
    post(member, &r.second);
    post(member, &r.third);
    if (r.commit.given)
        committed[member][commits[member]++ % 8] = r.commit.v;
    return r;
}

static struct chanbook_reply propose(uint64_t member, uint64_t v)
{
    struct chanbook_call c = {0};
    c.kind = CHANBOOK_PROPOSE;
    c.v = v;
    return call(member, c);
}

static struct chanbook_reply receive(uint64_t member, struct chanbook_message m)
{
    struct chanbook_call c = {0};
    c.kind = CHANBOOK_RECEIVE;
    c.message = m;
    c.value_held = 1;
    c.requester.given = 1;
    c.held_requester.given = 1;
    return call(member, c);
}

static void deliver_all(void)
{
    while (from < until) {
        receive(waiting[from].member, waiting[from].message);
        from++;
    }
}

static struct chanbook_group_settings settings_of(uint64_t mode)
{
    struct chanbook_group_settings g = {0};
    g.settings.process_count = MEMBERS;
    g.settings.replica_count = MEMBERS;
    g.settings.alive_replicas = 7;
    g.settings.mode = mode;
    g.whole_mhz_from = CHANBOOK_LAST_SLOT;
    return g;
}

/* A shard that begins in memory of any numbers: every one of them is written. */
static uint64_t begin(struct chanbook_shard *s, struct chanbook_group_settings g)
{
    struct chanbook_shard other;
    memset(s, 0xff, sizeof *s);
    memset(&other, 0, sizeof other);
    chanbook_begin(&other, g);
    uint64_t made = chanbook_begin(s, g);
    require(made == s->made, "another number than the mark");
    require(memcmp(&other, s, sizeof other) == 0, "a number that stood in the memory before");
    return made;
}

static void a_group_commits_and_reads(uint64_t mode)
{
    struct chanbook_group_settings g = settings_of(mode);
    from = until = 0;
    for (uint64_t p = 0; p < MEMBERS; p++) {
        g.settings.my_pid = p;
        require(begin(&shards[p], g) == 0, "settings refused");
        commits[p] = 0;
    }
    for (uint64_t slot = 0; slot < 2; slot++) {
        require(propose(0, 10 * (slot + 1)).outcome == 0, "proposal refused");
        deliver_all();
        for (int p = 0; p < MEMBERS; p++) {
            require(commits[p] == slot + 1 && committed[p][slot] == 10 * (slot + 1), "not committed everywhere");
            require(shards[p].state.rounds.core.slot == slot + 1, "slot not raised");
        }
    }

    struct chanbook_call read = {0};
    read.kind = CHANBOOK_START_READ;
    read.v = 77;
    struct chanbook_reply opened = call(1, read);
    require(opened.outcome == 0 && shards[1].state.rounds.core.open_count == 1, "read not opened");
    deliver_all();
    require(shards[1].state.rounds.core.open_count == 0 && shards[1].state.table.served[0].tag == 77, "read not served");
}

static void messages_are_refused(void)
{
    struct chanbook_message m = {0};
    m.kind = CHANBOOK_PREPARE;
    m.slot = 9;
    require(receive(2, m).outcome == 5, "slot ahead: 5");
    m.slot = (uint64_t)1 << 63;
    require(receive(2, m).outcome == 2, "number too large: 2");
    m.slot = 0;
    m.src = 3;
    require(receive(2, m).outcome == 3, "no such process: 3");
    m.src = 0;
    m.kind = 99;
    require(receive(2, m).outcome == 8, "unknown kind: 8");
    m.src = 3;
    require(receive(2, m).outcome == 3, "unknown kind of no process: 3");
}

static void shards_are_not_made(void)
{
    struct chanbook_group_settings g = settings_of(6);
    struct chanbook_call c = {0};
    struct chanbook_shard other;
    require(begin(&other, g) == 1, "unknown mode: 1");
    memset(&other, 0xff, sizeof other);
    require(call_on(&other, c).outcome == 1, "damaged shard: 1");
    g = settings_of(CHANBOOK_PAXOS);
    g.settings.process_count = 65;
    require(begin(&other, g) == 1 && call_on(&other, c).outcome == 1, "65 processes: 1");
    g = settings_of(CHANBOOK_PAXOS);
    g.whole_mhz_from = CHANBOOK_LAST_SLOT + 1;
    require(begin(&other, g) == 1 && call_on(&other, c).outcome == 1, "whole MHz from 2^63-1 on: 1");
}

/* A window of the year 2024, from the 29th of February to a day of March. */
static struct chanbook_window window_until(uint64_t day)
{
    struct chanbook_window w = {{2024, 2, 29, 23, 59}, {2024, 3, day, 0, 0}};
    return w;
}

/* The mark of a shard of these settings, once every kind of call gave it too where it is not 0. */
static uint64_t mark_of(struct chanbook_group_settings g)
{
    struct chanbook_shard s;
    begin(&s, g);
    struct chanbook_call c = {0};
    if (s.made == 0) {
        require(call_on(&s, c).outcome == 0, "a proposal is refused");
        return 0;
    }
    for (c.kind = CHANBOOK_PROPOSE; c.kind <= CHANBOOK_RECEIVE; c.kind++)
        for (c.message.kind = 0; c.message.kind <= CHANBOOK_READ_RESPONSE + 1; c.message.kind++)
            require(call_on(&s, c).outcome == s.made, "another number than the mark");
    c.message.slot = UINT64_MAX;
    c.message.src = 64;
    require(call_on(&s, c).outcome == s.made, "2 and 3 before the mark");
    return s.made;
}

static void windows_are_looked_at(uint64_t mode)
{
    struct chanbook_group_settings g = settings_of(mode);
    for (g.windows.count = 0; g.windows.count < 128; g.windows.count++)
        g.windows.places[g.windows.count] = window_until(1 + g.windows.count % 31);
    require(mark_of(g) == 0, "128 windows are refused");
    g.windows.places[127] = window_until(0);
    require(mark_of(g) == 17, "no day 0: 17");
    g.windows.count = 127;
    require(mark_of(g) == 0, "a place that is not looked at");
    g.windows.places[126] = window_until(32);
    require(mark_of(g) == 17, "no day 32: 17");
    g.windows.places[126].end = g.windows.places[126].start;
    require(mark_of(g) == 17, "an end that is not after its start: 17");
    g.whole_mhz_from = CHANBOOK_LAST_SLOT + 1;
    require(mark_of(g) == 1, "1 before 17");
    g.whole_mhz_from = CHANBOOK_LAST_SLOT;
    g.windows.count = 129;
    require(mark_of(g) == 1, "129 windows: 1");
}

/* A mark of 17 comes back as 17, and every other but 0 as 1. */
static void marks_are_numbers(uint64_t mode)
{
    const uint64_t marks[] = {1, 2, 16, 17, 18, 255, UINT64_MAX};
    struct chanbook_shard s;
    begin(&s, settings_of(mode));
    struct chanbook_call c = {0};
    for (int i = 0; i < 7; i++) {
        s.made = marks[i];
        require(call_on(&s, c).outcome == (marks[i] == 17 ? 17 : 1), "a mark is read as another number");
    }
    s.made = 17;
    s.settings.mode = 6;
    require(call_on(&s, c).outcome == 1, "unknown mode: 1, whatever the mark");
}

int main(void)
{
    const uint64_t modes[] = {CHANBOOK_EPAXOS, CHANBOOK_SWIFT_PAXOS, CHANBOOK_PAXOS};
    for (int mode = 0; mode < 3; mode++) {
        a_group_commits_and_reads(modes[mode]);
        messages_are_refused();
        windows_are_looked_at(modes[mode]);
        marks_are_numbers(modes[mode]);
    }
    shards_are_not_made();
    puts("host_test: ok");
    return 0;
}
