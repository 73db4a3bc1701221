/* Chanbook's shard engine for a host in C, C++ or Rust. Link libhost.a, libdirect.a and libdirect_fast.a, which
   tools/static_libraries.sh writes to target/staticlib.
   A host keeps a shard in a struct of its own, begins it with chanbook_begin and makes its calls with chanbook_call. Both lend the struct to the libraries,
   and nothing of it is copied.

   Every field is a number. 0 is no and any other number yes: a host tests such a field for 0, never for 1. A field that is not given is 0 where the
   engine writes it.
   Whatever numbers stand in a shard or a call, the call is taken or answered with a refusal's number of document 01 or 02. A refused call leaves
   every byte of the shard as it was. One thread at a time may hold a shard.
   In every mode but SwiftPaxos no two members of a group commit different values in one slot, on the terms of docs/QUESTIONS.md. */
#ifndef CHANBOOK_SHARD_H
#define CHANBOOK_SHARD_H

#include <stdint.h>

#ifdef __cplusplus
extern "C" {
#endif

/* A number, if it is given. */
struct chanbook_option {
    uint64_t given;
    uint64_t n;
};

struct chanbook_round {
    uint64_t given;
    uint64_t round_group;
    uint64_t leader;
};

/* fast: a value that `proposer` proposed on the fast path. Else a value with the round in which it was accepted, if it was. */
struct chanbook_promise {
    uint64_t fast;
    uint64_t proposer;
    struct chanbook_round accept_round;
    uint64_t v;
};

struct chanbook_held {
    uint64_t given;
    struct chanbook_promise promise;
};

enum {
    CHANBOOK_PAXOS = 0,
    CHANBOOK_MULTI_PAXOS = 1,
    CHANBOOK_MULTI_PAXOS_3P = 2,
    CHANBOOK_EPAXOS = 3,
    CHANBOOK_PANDO = 4,
    CHANBOOK_SWIFT_PAXOS = 5
};

/* Sets have the bit of each process. Delegates count in Pando alone, the quorum set in SwiftPaxos alone. */
struct chanbook_settings {
    uint64_t process_count;
    uint64_t replica_count;
    uint64_t my_pid;
    uint64_t alive_replicas;
    uint64_t first_leader;
    uint64_t mode;
    struct chanbook_option quorum;
    uint64_t has_committers;
    uint64_t committers[64];
    uint64_t delegates[64];
};

/* The last slot that may be named, 2^63-2. */
#define CHANBOOK_LAST_SLOT UINT64_C(9223372036854775806)

/* A minute of UTC in the Gregorian calendar: a year from 1970 to 9999, a month and a day from 1 on, an hour from 0 to 23 and a minute from 0 to 59. Any
   numbers may stand here: a date or a time that there is not gives 17. */
struct chanbook_date {
    uint64_t year;
    uint64_t month;
    uint64_t day;
    uint64_t hour;
    uint64_t minute;
};

/* The first minute belongs to the window, and the last does not. An end that is not after its start gives 17. */
struct chanbook_window {
    struct chanbook_date start;
    struct chanbook_date end;
};

/* The windows stand in the first `count` places, in any order, and may overlap. The other places are never looked at. More than 128 give 1. */
struct chanbook_windows {
    struct chanbook_window places[128];
    uint64_t count;
};

/* The settings of a group with what its planners agree on besides, all members the same: those of the engine; the slot from which the width of an
   assignment must be whole MHz (23 of document 02, E13), at most CHANBOOK_LAST_SLOT; and the windows in which a carrier may go on air (E8). A host that
   wants no slot of whole MHz names CHANBOOK_LAST_SLOT, which binds the last slot alone, and one that wants no windows a count of 0. */
struct chanbook_group_settings {
    struct chanbook_settings settings;
    uint64_t whole_mhz_from;
    struct chanbook_windows windows;
};

struct chanbook_core {
    uint64_t slot;
    struct chanbook_option last_v;
    uint64_t slot_left_fast_path;
    struct chanbook_round round;
    struct chanbook_held max_rv;
    uint64_t prepared_set;
    uint64_t accepted_set;
    uint64_t next_id;
    uint64_t open_count;
};

struct chanbook_fast {
    uint64_t fast_answer_set;
    uint64_t fast_preaccepted;
    uint64_t fast_proposers;
    struct chanbook_option swift_leader_answer;
    uint64_t fast_proposer_to_v[64];
    uint64_t epaxos_proposer_scores[64];
    uint64_t swift_proposer_scores[64];
};

struct chanbook_rounds {
    struct chanbook_core core;
    struct chanbook_fast fast;
};

struct chanbook_open_read {
    uint64_t id;
    uint64_t tag;
    uint64_t arrival_slot;
    uint64_t ready_count;
    uint64_t local_ready;
};

struct chanbook_served_read {
    uint64_t id;
    uint64_t tag;
    uint64_t waited_for;
    uint64_t fast;
};

/* The open reads stand in the first core.open_count places. The reads that a call has served stand in the first places of `served`. */
struct chanbook_table {
    struct chanbook_open_read reads[128];
    struct chanbook_served_read served[128];
};

struct chanbook_state {
    struct chanbook_rounds rounds;
    struct chanbook_table table;
};

/* made: 0 for a shard that is made. With 17 it refuses every call with 17, and with any other number with 1; the engine writes 0, 1 or 17. In a mode
   that there is not every call is refused with 1, whatever the number. */
struct chanbook_shard {
    uint64_t made;
    struct chanbook_settings settings;
    struct chanbook_state state;
};

enum {
    CHANBOOK_PREPARE = 1,
    CHANBOOK_ACCEPT = 2,
    CHANBOOK_FORWARD_REQUEST = 3,
    CHANBOOK_COMMIT = 4,
    CHANBOOK_READ_REQUEST = 5,
    CHANBOOK_READ_RESPONSE = 6
};

/* Which fields count depends on the kind: Prepare slot, round, rv; Accept slot, round, v; ForwardRequest v; Commit slot, v; ReadRequest id;
   ReadResponse id, next_readable_slot. Source and last value count always. Of any other kind id, source and last value count,
   and the call is refused with 8, after 2 and 3. */
struct chanbook_message {
    uint64_t kind;
    uint64_t slot;
    uint64_t round_group;
    uint64_t leader;
    struct chanbook_promise rv;
    uint64_t v;
    uint64_t id;
    uint64_t next_readable_slot;
    uint64_t src;
    struct chanbook_option last_v;
};

enum { CHANBOOK_PROPOSE = 0, CHANBOOK_START_READ = 1, CHANBOOK_RECEIVE = 2 };

/* A proposal of v, a new read with the tag v and its arrival slot, or else a message with what the host says of it: whether the message's value
   is held, the value's requester, the fast mark of a read, and the requester of the value in the held promise. */
struct chanbook_call {
    uint64_t kind;
    uint64_t v;
    uint64_t arrival_slot;
    struct chanbook_message message;
    uint64_t value_held;
    struct chanbook_option requester;
    uint64_t fast;
    struct chanbook_option held_requester;
};

enum { CHANBOOK_NO_MESSAGE = 0, CHANBOOK_TO_ONE = 1, CHANBOOK_TO_ALL = 2 };

/* CHANBOOK_TO_ONE: to the process `to`. CHANBOOK_TO_ALL: to every other process, and to the one in `first`, if it is given, before the others. */
struct chanbook_outgoing {
    uint64_t kind;
    uint64_t to;
    struct chanbook_option first;
    struct chanbook_message message;
};

/* given: whether the call commits; then in which slot, which value, and whether on the fast path. */
struct chanbook_commit {
    uint64_t given;
    uint64_t slot;
    uint64_t v;
    uint64_t fast;
};

/* outcome: 0, or the refusal's number. The messages are to be sent in this order. served_count: how many reads the call has served. */
struct chanbook_reply {
    uint64_t outcome;
    struct chanbook_outgoing first;
    struct chanbook_outgoing second;
    struct chanbook_outgoing third;
    struct chanbook_commit commit;
    uint64_t served_count;
};

/* A shard as it begins from the settings of its group, of which it keeps the engine's alone. Every number of it is written, whatever stood there.
   Gives the shard's `made`: 0; 1 where the settings are outside the limits, more than 128 windows among them; or else 17 where a window has a date or a
   time that there is not, or an end that is not after its start. */
uint64_t chanbook_shard_new(struct chanbook_group_settings group, struct chanbook_shard *shard);

enum { CHANBOOK_PASSED_ON = 255 };

/* A call in place. Neither the call nor the reply may overlap the shard, nor one the other. `made`, the settings and the fast half are left, and so is the
   reply's outcome, which is for the caller to write.
   0: the call is taken. Core, reads and reply are written; of a message that is not sent only the kind is written.
   A refusal's number: nothing at all is written.
   CHANBOOK_PASSED_ON: nothing is written, and the call is one of those that chanbook_fast_call takes. */
uint64_t chanbook_direct_call(struct chanbook_shard *shard, const struct chanbook_call *call, struct chanbook_reply *reply);

/* The same for EPaxos and SwiftPaxos: proposals, Prepare, Accept, ForwardRequest and Commit. The fast half is written besides, where the call is taken.
   CHANBOOK_PASSED_ON: nothing is written, and the call is one of those that chanbook_direct_call takes: a new read, a message of a read or of an
   unknown kind, and all of the other modes. */
uint64_t chanbook_fast_call(struct chanbook_shard *shard, const struct chanbook_call *call, struct chanbook_reply *reply);

/* A shard as it begins, in place; gives its `made`. */
static inline uint64_t chanbook_begin(struct chanbook_shard *s, struct chanbook_group_settings group)
{
    return chanbook_shard_new(group, s);
}

/* By the function that takes the call. In this order chanbook_direct_call never passes on. */
static inline uint64_t chanbook_outcome(struct chanbook_shard *s, const struct chanbook_call *call, struct chanbook_reply *reply)
{
    if (s->settings.mode == CHANBOOK_EPAXOS || s->settings.mode == CHANBOOK_SWIFT_PAXOS) {
        uint64_t number = chanbook_fast_call(s, call, reply);
        if (number != CHANBOOK_PASSED_ON)
            return number;
    }
    return chanbook_direct_call(s, call, reply);
}

/* A call as a host makes it, in place in every mode. The reply may be one that an earlier call has filled. Of a message whose kind is
   CHANBOOK_NO_MESSAGE, and of a commit that is not given, the other numbers say nothing. */
static inline void chanbook_call(struct chanbook_shard *s, const struct chanbook_call *call, struct chanbook_reply *reply)
{
    reply->outcome = chanbook_outcome(s, call, reply);
    if (reply->outcome != 0) {
        /* Nothing is written, and what an earlier call sent may still stand there. */
        reply->first.kind = CHANBOOK_NO_MESSAGE;
        reply->second.kind = CHANBOOK_NO_MESSAGE;
        reply->third.kind = CHANBOOK_NO_MESSAGE;
        reply->commit.given = 0;
        reply->served_count = 0;
    }
}

#ifdef __cplusplus
}
#endif
#endif
