/* The recorded sample (docs/ORACLE.md) by a host in C: what chanbook_begin and chanbook_call make of each call line is what the Rust of kcensus answers.
   Lines that are no call are passed over: a host in C reads none.
   Build: cc -I crates/host/include crates/host/test/recorded_test.c target/staticlib/libhost.a target/staticlib/libdirect.a \
     target/staticlib/libdirect_fast.a -o recorded_test
   Run: recorded_test crates/replay/stdin crates/replay/stdout */
#include <inttypes.h>
#include <stdarg.h>
#include <stdio.h>
#include <stdlib.h>
#include <string.h>

#include "chanbook_shard.h"

enum { BYTES = 1 << 17, NUMBERS = 2048, PLACES = 64, OPEN_READS = 128, WINDOWS = 128 };

static struct chanbook_shard shard;
static struct chanbook_reply reply;
static char line[BYTES], expected[BYTES], answer[BYTES];
static size_t length;

static void put(const char *format, ...)
{
    va_list arguments;
    va_start(arguments, format);
    length += (size_t)vsnprintf(answer + length, sizeof answer - length, format, arguments);
    va_end(arguments);
}

/* ---- call lines: the next number of the line */

static const uint64_t *next;

static struct chanbook_option option(void)
{
    struct chanbook_option o = {next[0], next[1]};
    next += 2;
    return o;
}

static struct chanbook_round round_of(void)
{
    struct chanbook_round r = {next[0], next[1], next[2]};
    next += 3;
    return r;
}

/* Kind 0 is a fast one, 1 has no round, 2 has one, and 3 is none. */
static struct chanbook_held held(void)
{
    struct chanbook_held h = {next[0] != 3, {next[0] == 0, 0, {next[0] == 2, next[1], next[2]}, next[3]}};
    h.promise.proposer = next[0] == 0 ? next[1] : 0;
    next += 4;
    return h;
}

static void table(uint64_t places[PLACES])
{
    for (uint64_t count = *next++, i = 0; i < count; i++)
        places[i] = *next++;
}

static struct chanbook_date date(void)
{
    struct chanbook_date d = {next[0], next[1], next[2], next[3], next[4]};
    next += 5;
    return d;
}

static uint64_t begin(void)
{
    static struct chanbook_group_settings g;
    struct chanbook_settings *s = &g.settings;
    memset(&g, 0, sizeof g);
    s->process_count = *next++;
    s->replica_count = *next++;
    s->my_pid = *next++;
    s->alive_replicas = *next++;
    s->first_leader = *next++;
    s->mode = *next++;
    s->quorum = option();
    s->has_committers = *next++;
    table(s->committers);
    table(s->delegates);
    g.whole_mhz_from = *next++;
    g.windows.count = *next++;
    for (uint64_t i = 0; i < g.windows.count && i < WINDOWS; i++) {
        g.windows.places[i].start = date();
        g.windows.places[i].end = date();
    }
    return chanbook_begin(&shard, g);
}

static uint64_t set_state(void)
{
    struct chanbook_core *core = &shard.state.rounds.core;
    struct chanbook_fast *fast = &shard.state.rounds.fast;
    if (shard.made != 0)
        return shard.made;
    memset(&shard.state, 0, sizeof shard.state);
    core->slot = *next++;
    core->last_v = option();
    core->slot_left_fast_path = *next++;
    core->round = round_of();
    core->max_rv = held();
    core->prepared_set = *next++;
    core->accepted_set = *next++;
    fast->fast_answer_set = *next++;
    fast->fast_preaccepted = *next++;
    fast->fast_proposers = *next++;
    fast->swift_leader_answer = option();
    core->next_id = *next++;
    for (uint64_t count = *next++; count > 0; count--, next += 4) {
        fast->fast_proposer_to_v[next[0]] = next[1];
        fast->epaxos_proposer_scores[next[0]] = next[2];
        fast->swift_proposer_scores[next[0]] = next[3];
    }
    core->open_count = *next++;
    for (uint64_t i = 0; i < core->open_count; i++, next += 5) {
        struct chanbook_open_read r = {next[0], next[1], next[2], next[3], next[4]};
        shard.state.table.reads[i] = r;
    }
    return 0;
}

/* A line's kinds from 5 on are those of messages from 1 on. */
static struct chanbook_message message(uint64_t kind)
{
    struct chanbook_message m = {0};
    m.kind = kind - 4;
    m.src = *next++;
    m.last_v = option();
    if (m.kind == CHANBOOK_PREPARE || m.kind == CHANBOOK_ACCEPT || m.kind == CHANBOOK_COMMIT)
        m.slot = *next++;
    if (m.kind == CHANBOOK_PREPARE || m.kind == CHANBOOK_ACCEPT) {
        m.round_group = *next++;
        m.leader = *next++;
    }
    if (m.kind == CHANBOOK_PREPARE)
        m.rv = held().promise;
    if (m.kind >= CHANBOOK_ACCEPT && m.kind <= CHANBOOK_COMMIT)
        m.v = *next++;
    if (m.kind >= CHANBOOK_READ_REQUEST)
        m.id = *next++;
    if (m.kind == CHANBOOK_READ_RESPONSE)
        m.next_readable_slot = *next++;
    return m;
}

static uint64_t make_call(uint64_t kind)
{
    struct chanbook_call c = {0};
    c.kind = kind == 3 ? CHANBOOK_PROPOSE : kind == 4 ? CHANBOOK_START_READ : CHANBOOK_RECEIVE;
    if (c.kind == CHANBOOK_RECEIVE) {
        c.message = message(kind);
        c.value_held = *next++;
        c.requester = option();
        c.fast = *next++;
        c.held_requester = option();
    } else {
        c.v = *next++;
        if (c.kind == CHANBOOK_START_READ)
            c.arrival_slot = *next++;
    }
    chanbook_call(&shard, &c, &reply);
    return reply.outcome;
}

/* ---- answer lines */

static void put_option(struct chanbook_option o)
{
    if (o.given)
        put(" %" PRIu64, o.n);
    else
        put(" -");
}

static void put_promise(struct chanbook_promise p)
{
    if (p.fast)
        put(" fast %" PRIu64 " %" PRIu64, p.proposer, p.v);
    else if (p.accept_round.given)
        put(" paxos %" PRIu64 " %" PRIu64 " %" PRIu64, p.accept_round.round_group, p.accept_round.leader, p.v);
    else
        put(" paxos - %" PRIu64, p.v);
}

static void put_message(const struct chanbook_message *m)
{
    static const char *const names[] = {"", "prepare", "accept", "forward", "commit", "read_request", "read_response"};
    put(" %s", names[m->kind]);
    if (m->kind == CHANBOOK_PREPARE || m->kind == CHANBOOK_ACCEPT || m->kind == CHANBOOK_COMMIT)
        put(" %" PRIu64, m->slot);
    if (m->kind == CHANBOOK_PREPARE || m->kind == CHANBOOK_ACCEPT)
        put(" %" PRIu64 " %" PRIu64, m->round_group, m->leader);
    if (m->kind == CHANBOOK_PREPARE)
        put_promise(m->rv);
    if (m->kind >= CHANBOOK_ACCEPT && m->kind <= CHANBOOK_COMMIT)
        put(" %" PRIu64, m->v);
    if (m->kind >= CHANBOOK_READ_REQUEST)
        put(" %" PRIu64, m->id);
    if (m->kind == CHANBOOK_READ_RESPONSE)
        put(" %" PRIu64, m->next_readable_slot);
}

static void put_outgoing(const struct chanbook_outgoing *o)
{
    if (o->kind == CHANBOOK_NO_MESSAGE)
        return;
    if (o->kind == CHANBOOK_TO_ONE)
        put(" | send %" PRIu64 " -", o->to);
    else {
        put(" | send all");
        put_option(o->first);
    }
    put_option(o->message.last_v);
    put_message(&o->message);
}

static void put_reply(void)
{
    put_outgoing(&reply.first);
    put_outgoing(&reply.second);
    put_outgoing(&reply.third);
    if (reply.commit.given)
        put(" | commit %" PRIu64 " %" PRIu64 " %d", reply.commit.slot, reply.commit.v, reply.commit.fast != 0);
    for (uint64_t i = 0; i < reply.served_count; i++) {
        struct chanbook_served_read r = shard.state.table.served[i];
        put(" | served %" PRIu64 " %" PRIu64 " %" PRIu64 " %d", r.id, r.tag, r.waited_for, r.fast != 0);
    }
}

static void put_core(const struct chanbook_core *core)
{
    put(" | shard %" PRIu64, core->slot);
    put_option(core->last_v);
    put(" %d", core->slot_left_fast_path != 0);
    if (core->round.given)
        put(" %" PRIu64 " %" PRIu64, core->round.round_group, core->round.leader);
    else
        put(" -");
    if (core->max_rv.given)
        put_promise(core->max_rv.promise);
    else
        put(" -");
    put(" %" PRIu64 " %" PRIu64, core->prepared_set, core->accepted_set);
}

static void put_shard(void)
{
    const struct chanbook_core *core = &shard.state.rounds.core;
    const struct chanbook_fast *fast = &shard.state.rounds.fast;
    put_core(core);
    put(" %" PRIu64 " %" PRIu64 " %" PRIu64, fast->fast_answer_set, fast->fast_preaccepted, fast->fast_proposers);
    put_option(fast->swift_leader_answer);
    put(" %" PRIu64, core->next_id);
    for (int p = 0; p < PLACES; p++)
        if (fast->fast_proposers >> p & 1)
            put(" | proposer %d %" PRIu64 " %" PRIu64 " %" PRIu64, p, fast->fast_proposer_to_v[p], fast->epaxos_proposer_scores[p],
                fast->swift_proposer_scores[p]);
    for (uint64_t i = 0; i < core->open_count && i < OPEN_READS; i++) {
        struct chanbook_open_read r = shard.state.table.reads[i];
        put(" | read %" PRIu64 " %" PRIu64 " %" PRIu64 " %" PRIu64 " %d", r.id, r.tag, r.arrival_slot, r.ready_count, r.local_ready != 0);
    }
}

/* ---- the sample */

static void answer_line(void)
{
    static uint64_t numbers[NUMBERS + 1];
    int count = 0;
    for (char *at = line; *at != '\n' && *at != 0 && count < NUMBERS; count++)
        numbers[count] = strtoull(at, &at, 10);
    next = numbers + 1;
    uint64_t number = numbers[0] == 1 ? begin() : numbers[0] == 2 ? set_state() : make_call(numbers[0]);
    length = 0;
    if (number != 0)
        put("refused %" PRIu64, number);
    else
        put("done");
    if (number == 0 && numbers[0] >= 3)
        put_reply();
    if (shard.made == 0)
        put_shard();
    else
        put(" | not_made");
    put("\n");
}

int main(int count, char **files)
{
    FILE *calls = count == 3 ? fopen(files[1], "r") : NULL, *answers = count == 3 ? fopen(files[2], "r") : NULL;
    unsigned long at = 0, answered = 0;
    if (calls == NULL || answers == NULL) {
        fprintf(stderr, "recorded_test CALLS ANSWERS\n");
        return 2;
    }
    /* before the first settings nothing is made */
    shard.made = 1;
    while (at++, fgets(line, sizeof line, calls) != NULL) {
        if (line[0] == '\n' || line[0] == '#')
            continue;
        if (fgets(expected, sizeof expected, answers) == NULL) {
            fprintf(stderr, "recorded_test: line %lu has no answer\n", at);
            return 1;
        }
        if (strncmp(expected, "bad line: ", 10) == 0)
            continue;
        answer_line();
        if (strcmp(answer, expected) != 0) {
            fprintf(stderr, "recorded_test: line %lu: %sanswered: %sthe Rust: %s", at, line, answer, expected);
            return 1;
        }
        answered++;
    }
    if (answered < 10000 || fgets(expected, sizeof expected, answers) != NULL) {
        fprintf(stderr, "recorded_test: not the whole sample\n");
        return 1;
    }
    printf("recorded_test: ok, %lu lines\n", answered);
    return 0;
}
