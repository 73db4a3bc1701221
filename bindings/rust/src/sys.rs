//! The flat forms of shards, calls and replies, which are lent to the functions that crates/host, crates/direct and crates/direct_fast export. Those of the
//! parts are as crates/flat, crates/calendar, crates/windows and crates/group_settings declare them. A flat form has numbers only: 0 is
//! no and any other number yes. Every flat form stands for some shard or call, whatever numbers are in it, and so a call on one is safe.
//!
//! [`Shard`](crate::Shard) is the interface for a host; these are for whoever keeps shards in memory of their own.
#![allow(missing_docs)]

use std::mem::{offset_of, size_of};

/// A number, if it is given.
#[repr(C)]
#[derive(Clone, Copy, Debug, PartialEq, Eq, Default)]
pub struct FlatOption {
    pub given: u64,
    pub n: u64,
}

/// A round, if it is given.
#[repr(C)]
#[derive(Clone, Copy, Debug, PartialEq, Eq, Default)]
pub struct FlatRound {
    pub given: u64,
    pub round_group: u64,
    pub leader: u64,
}

/// A promise: of a proposer on the fast path, or with the round in which the value was accepted, if it was.
#[repr(C)]
#[derive(Clone, Copy, Debug, PartialEq, Eq, Default)]
pub struct FlatPromise {
    pub fast: u64,
    pub proposer: u64,
    pub accept_round: FlatRound,
    pub v: u64,
}

/// The held promise, if there is one.
#[repr(C)]
#[derive(Clone, Copy, Debug, PartialEq, Eq, Default)]
pub struct FlatHeld {
    pub given: u64,
    pub promise: FlatPromise,
}

/// Mode: 0 Paxos, 1 MultiPaxos, 2 MultiPaxos3P, 3 EPaxos, 4 Pando, 5 SwiftPaxos.
#[repr(C)]
#[derive(Clone, Copy, Debug, PartialEq, Eq)]
pub struct FlatSettings {
    pub process_count: u64,
    pub replica_count: u64,
    pub my_pid: u64,
    pub alive_replicas: u64,
    pub first_leader: u64,
    pub mode: u64,
    pub quorum: FlatOption,
    pub has_committers: u64,
    pub committers: [u64; 64],
    pub delegates: [u64; 64],
}

/// A minute of UTC in the Gregorian calendar.
#[repr(C)]
#[derive(Clone, Copy, Debug, PartialEq, Eq, Default)]
pub struct FlatDate {
    pub year: u64,
    pub month: u64,
    pub day: u64,
    pub hour: u64,
    pub minute: u64,
}

/// A window: the first minute belongs to it, and the last does not.
#[repr(C)]
#[derive(Clone, Copy, Debug, PartialEq, Eq, Default)]
pub struct FlatWindow {
    pub start: FlatDate,
    pub end: FlatDate,
}

/// The windows, in the first `count` places. The others are never looked at.
#[repr(C)]
#[derive(Clone, Copy, Debug, PartialEq, Eq)]
pub struct FlatWindows {
    pub places: [FlatWindow; 128],
    pub count: u64,
}

/// The settings of a group: those of the engine, the slot from which a width must be whole MHz, and the windows in which a carrier may go on air.
#[repr(C)]
#[derive(Clone, Copy, Debug, PartialEq, Eq)]
pub struct FlatGroupSettings {
    pub settings: FlatSettings,
    pub whole_mhz_from: u64,
    pub windows: FlatWindows,
}

/// What most calls change.
#[repr(C)]
#[derive(Clone, Copy, Debug, PartialEq, Eq, Default)]
pub struct FlatCore {
    pub slot: u64,
    pub last_v: FlatOption,
    pub slot_left_fast_path: u64,
    pub round: FlatRound,
    pub max_rv: FlatHeld,
    pub prepared_set: u64,
    pub accepted_set: u64,
    pub next_id: u64,
    pub open_count: u64,
}

/// What EPaxos and SwiftPaxos change besides.
#[repr(C)]
#[derive(Clone, Copy, Debug, PartialEq, Eq)]
pub struct FlatFast {
    pub fast_answer_set: u64,
    pub fast_preaccepted: u64,
    pub fast_proposers: u64,
    pub swift_leader_answer: FlatOption,
    pub fast_proposer_to_v: [u64; 64],
    pub epaxos_proposer_scores: [u64; 64],
    pub swift_proposer_scores: [u64; 64],
}

/// Both halves of the round state.
#[repr(C)]
#[derive(Clone, Copy, Debug, PartialEq, Eq)]
pub struct FlatRounds {
    pub core: FlatCore,
    pub fast: FlatFast,
}

/// A read that waits.
#[repr(C)]
#[derive(Clone, Copy, Debug, PartialEq, Eq, Default)]
pub struct FlatOpenRead {
    pub id: u64,
    pub tag: u64,
    pub arrival_slot: u64,
    pub ready_count: u64,
    pub local_ready: u64,
}

/// A read that was served.
#[repr(C)]
#[derive(Clone, Copy, Debug, PartialEq, Eq, Default)]
pub struct FlatServedRead {
    pub id: u64,
    pub tag: u64,
    pub waited_for: u64,
    pub fast: u64,
}

/// The open and the served reads.
#[repr(C)]
#[derive(Clone, Copy, Debug, PartialEq, Eq)]
pub struct FlatTable {
    pub reads: [FlatOpenRead; 128],
    pub served: [FlatServedRead; 128],
}

/// Everything that calls change.
#[repr(C)]
#[derive(Clone, Copy, Debug, PartialEq, Eq)]
pub struct FlatState {
    pub rounds: FlatRounds,
    pub table: FlatTable,
}

/// `made` is 0 for a shard that is made. With 17 it refuses every call with 17, and with any other number with 1; the engine writes 0, 1 or 17.
#[repr(C)]
#[derive(Clone, Copy, Debug, PartialEq, Eq)]
pub struct FlatShard {
    pub made: u64,
    pub settings: FlatSettings,
    pub state: FlatState,
}

/// Kind: 1 Prepare, 2 Accept, 3 ForwardRequest, 4 Commit, 5 ReadRequest, 6 ReadResponse.
#[repr(C)]
#[derive(Clone, Copy, Debug, PartialEq, Eq, Default)]
pub struct FlatMessage {
    pub kind: u64,
    pub slot: u64,
    pub round_group: u64,
    pub leader: u64,
    pub rv: FlatPromise,
    pub v: u64,
    pub id: u64,
    pub next_readable_slot: u64,
    pub src: u64,
    pub last_v: FlatOption,
}

/// Kind: 0 a proposal of v, 1 a new read with the tag v, and else a message.
#[repr(C)]
#[derive(Clone, Copy, Debug, PartialEq, Eq, Default)]
pub struct FlatCall {
    pub kind: u64,
    pub v: u64,
    pub arrival_slot: u64,
    pub message: FlatMessage,
    pub value_held: u64,
    pub requester: FlatOption,
    pub fast: u64,
    pub held_requester: FlatOption,
}

/// Kind: 0 no message, 1 a message to the process `to`, 2 a message to every other process, with the one that is served first.
#[repr(C)]
#[derive(Clone, Copy, Debug, PartialEq, Eq, Default)]
pub struct FlatOutgoing {
    pub kind: u64,
    pub to: u64,
    pub first: FlatOption,
    pub message: FlatMessage,
}

/// The commit of a call, if it has one.
#[repr(C)]
#[derive(Clone, Copy, Debug, PartialEq, Eq, Default)]
pub struct FlatCommit {
    pub given: u64,
    pub slot: u64,
    pub v: u64,
    pub fast: u64,
}

/// The outcome is 0, or the number of the refusal.
#[repr(C)]
#[derive(Clone, Copy, Debug, PartialEq, Eq, Default)]
pub struct FlatReply {
    pub outcome: u64,
    pub first: FlatOutgoing,
    pub second: FlatOutgoing,
    pub third: FlatOutgoing,
    pub commit: FlatCommit,
    pub served_count: u64,
}

// SAFETY: each function is proved to write nothing but what is lent to it as `mut`, in the very layout of these structs (tests/layout.rs), and to take every
// number that may stand there.
unsafe extern "C" {
    /// A shard as it begins. Every number of it is written. Gives its `made`: 0; 1 where the settings are outside the limits; or else 17 where a window does
    /// not fit.
    pub safe fn chanbook_shard_new(group: FlatGroupSettings, shard: &mut FlatShard) -> u64;

    /// A call in place. Gives 0 where the call is taken; of a message that is not sent only the kind is written. Gives the number of a refusal, or
    /// [`PASSED_ON`] for a call that [`chanbook_fast_call`] takes: nothing at all is written then. The reply's outcome is left for the caller to write.
    pub safe fn chanbook_direct_call(shard: &mut FlatShard, call: &FlatCall, reply: &mut FlatReply) -> u64;

    /// The same for EPaxos and SwiftPaxos: proposals, Prepare, Accept, ForwardRequest and Commit. The fast half is written besides. Gives [`PASSED_ON`] for
    /// a call that [`chanbook_direct_call`] takes: a new read, a message of a read or of an unknown kind, and all of the other modes.
    pub safe fn chanbook_fast_call(shard: &mut FlatShard, call: &FlatCall, reply: &mut FlatReply) -> u64;
}

/// The modes with a fast path, as numbers.
const EPAXOS: u64 = 3;
const SWIFT_PAXOS: u64 = 5;

/// [`chanbook_direct_call`] or [`chanbook_fast_call`] does not take the call: it has to go to the other.
pub const PASSED_ON: u64 = 255;

/// A call as a host makes it, in place in every mode. The reply may be one that an earlier call has filled. Of a message that is not sent, and of a
/// commit that is not given, the other numbers say nothing.
#[inline]
pub fn chanbook_call(shard: &mut FlatShard, call: &FlatCall, reply: &mut FlatReply) {
    reply.outcome = outcome(shard, call, reply);
    if reply.outcome != 0 {
        // Nothing is written, and what an earlier call sent may still stand there.
        reply.first.kind = 0;
        reply.second.kind = 0;
        reply.third.kind = 0;
        reply.commit.given = 0;
        reply.served_count = 0;
    }
}

/// By the function that takes the call. In this order [`chanbook_direct_call`] never passes on.
#[inline]
fn outcome(shard: &mut FlatShard, call: &FlatCall, reply: &mut FlatReply) -> u64 {
    if matches!(shard.settings.mode, EPAXOS | SWIFT_PAXOS) {
        let number = chanbook_fast_call(shard, call, reply);
        if number != PASSED_ON {
            return number;
        }
    }
    chanbook_direct_call(shard, call, reply)
}

macro_rules! numbers {
    ($flat:ty) => {
        impl $flat {
            /// How many numbers it has.
            pub const NUMBERS: usize = size_of::<$flat>() / size_of::<u64>();

            /// The flat form that has these numbers, in the order of its fields.
            pub fn from_numbers(numbers: [u64; Self::NUMBERS]) -> $flat {
                // Sound: both types have the same size and alignment, and every bit pattern is a value of both.
                unsafe { std::mem::transmute(numbers) }
            }

            /// Its numbers, in the order of its fields.
            pub fn numbers(&self) -> [u64; Self::NUMBERS] {
                // Sound: as above.
                unsafe { std::mem::transmute(*self) }
            }
        }
    };
}

numbers!(FlatShard);
numbers!(FlatCall);

impl FlatShard {
    /// A shard as it begins. Its `made` says whether it is made.
    pub fn begun(group: &FlatGroupSettings) -> Box<FlatShard> {
        let mut shard = Box::new(FlatShard::from_numbers([0; FlatShard::NUMBERS]));
        chanbook_shard_new(*group, &mut shard);
        shard
    }
}

// A place of another size or offset than C's would be read wrong on the other side.
const _: () = {
    assert!(size_of::<FlatMessage>() == 128);
    assert!(size_of::<FlatCall>() == 200);
    assert!(size_of::<FlatOutgoing>() == 160);
    assert!(size_of::<FlatReply>() == 528);
    assert!(size_of::<FlatSettings>() == 1096);
    assert!(size_of::<FlatWindows>() == 10248);
    assert!(size_of::<FlatGroupSettings>() == 11352);
    assert!(size_of::<FlatShard>() == 12040);
    assert!(offset_of!(FlatShard, settings) == 8);
    assert!(offset_of!(FlatShard, state) == 1104);
    assert!(offset_of!(FlatState, table) == 1720);
    assert!(offset_of!(FlatRounds, fast) == 144);
    assert!(offset_of!(FlatTable, served) == 5120);
    assert!(offset_of!(FlatReply, commit) == 488);
    assert!(size_of::<FlatFast>() == 1576);
    assert!(offset_of!(FlatFast, swift_leader_answer) == 24);
    assert!(offset_of!(FlatFast, fast_proposer_to_v) == size_of::<[u64; 5]>());
    assert!(offset_of!(FlatFast, epaxos_proposer_scores) == 552);
    assert!(offset_of!(FlatFast, swift_proposer_scores) == 1064);
    assert!(offset_of!(FlatShard, settings.committers) == size_of::<[u64; 10]>());
    assert!(size_of::<FlatCall>() == size_of::<[u64; 25]>());
    assert!(offset_of!(FlatReply, served_count) == offset_of!(FlatReply, commit) + size_of::<FlatCommit>());
    assert!(size_of::<FlatReply>() == offset_of!(FlatReply, commit) + size_of::<[u64; 5]>());
};
