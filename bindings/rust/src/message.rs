//! Rounds, promises and the six messages.
use crate::sys::{FlatMessage, FlatOption, FlatPromise, FlatRound};

/// A round, ordered by group and then by leader. No round (`None`) comes before every round.
///
/// ```
/// use chanbook_shard::PaxosRound;
/// let earlier = PaxosRound { round_group: 0, leader: 4 };
/// let later = PaxosRound { round_group: 1, leader: 0 };
/// assert!(None < Some(earlier) && earlier < later);
/// ```
#[derive(Clone, Copy, Debug, Default, PartialEq, Eq, PartialOrd, Ord, Hash)]
pub struct PaxosRound {
    /// The group: the higher one is later, whoever leads.
    pub round_group: u64,
    /// The process that leads the round.
    pub leader: u64,
}

/// A promise.
#[derive(Clone, Copy, Debug, PartialEq, Eq, Hash)]
pub enum RoundV {
    /// The value that a process proposed on the fast path.
    FastV {
        /// The process that proposed it.
        proposer: u64,
        /// The value.
        v: u64,
    },
    /// A value, with the round in which it was accepted, if it was.
    PaxosV {
        /// That round.
        accept_round: Option<PaxosRound>,
        /// The value.
        v: u64,
    },
}

/// Identifies a read among those that a process issued for one shard. It is never a slot.
#[derive(Clone, Copy, Debug, PartialEq, Eq, PartialOrd, Ord, Hash)]
pub struct ReadId(pub u64);

/// The six messages.
#[derive(Clone, Copy, Debug, PartialEq, Eq, Hash)]
pub enum ConsensusMsg {
    /// Asks for a promise in a round, or answers with one.
    Prepare {
        /// The slot.
        slot: u64,
        /// The round.
        round: PaxosRound,
        /// The promise.
        rv: RoundV,
    },
    /// Asks to accept a value in a round, or says that it was accepted.
    Accept {
        /// The slot.
        slot: u64,
        /// The round.
        round: PaxosRound,
        /// The value.
        v: u64,
    },
    /// A proposal that a host forwarded to another. The engine does nothing with it.
    ForwardRequest {
        /// The value.
        v: u64,
    },
    /// A value is committed.
    Commit {
        /// The slot.
        slot: u64,
        /// The value.
        v: u64,
    },
    /// Asks from which slot on a read is safe.
    ReadRequest {
        /// The read.
        id: ReadId,
    },
    /// The answer to a ReadRequest.
    ReadResponse {
        /// The read.
        id: ReadId,
        /// The first slot at which the answering process can serve it.
        next_readable_slot: u64,
    },
}

/// A message with its source.
#[derive(Clone, Copy, Debug, PartialEq, Eq, Hash)]
pub struct ConsensusMessage {
    /// The message.
    pub msg: ConsensusMsg,
    /// The process that sent it.
    pub src: u64,
    /// The value that the source had committed last, if it had one.
    pub last_v: Option<u64>,
}

pub(crate) fn flat_option(n: Option<u64>) -> FlatOption {
    FlatOption { given: u64::from(n.is_some()), n: n.unwrap_or(0) }
}

pub(crate) fn option(f: FlatOption) -> Option<u64> {
    (f.given != 0).then_some(f.n)
}

pub(crate) fn round(f: FlatRound) -> Option<PaxosRound> {
    (f.given != 0).then_some(PaxosRound { round_group: f.round_group, leader: f.leader })
}

fn flat_round(round: Option<PaxosRound>) -> FlatRound {
    let given = u64::from(round.is_some());
    let PaxosRound { round_group, leader } = round.unwrap_or_default();
    FlatRound { given, round_group, leader }
}

fn flat_promise(rv: RoundV) -> FlatPromise {
    match rv {
        RoundV::FastV { proposer, v } => FlatPromise { fast: 1, proposer, v, ..FlatPromise::default() },
        RoundV::PaxosV { accept_round, v } => FlatPromise { accept_round: flat_round(accept_round), v, ..FlatPromise::default() },
    }
}

pub(crate) fn promise(f: FlatPromise) -> RoundV {
    if f.fast != 0 {
        return RoundV::FastV { proposer: f.proposer, v: f.v };
    }
    RoundV::PaxosV { accept_round: round(f.accept_round), v: f.v }
}

fn flat_msg(msg: ConsensusMsg) -> FlatMessage {
    let none = FlatMessage::default();
    match msg {
        ConsensusMsg::Prepare { slot, round, rv } => {
            FlatMessage { kind: 1, slot, round_group: round.round_group, leader: round.leader, rv: flat_promise(rv), ..none }
        }
        ConsensusMsg::Accept { slot, round, v } => {
            FlatMessage { kind: 2, slot, round_group: round.round_group, leader: round.leader, v, ..none }
        }
        ConsensusMsg::ForwardRequest { v } => FlatMessage { kind: 3, v, ..none },
        ConsensusMsg::Commit { slot, v } => FlatMessage { kind: 4, slot, v, ..none },
        ConsensusMsg::ReadRequest { id } => FlatMessage { kind: 5, id: id.0, ..none },
        ConsensusMsg::ReadResponse { id, next_readable_slot } => FlatMessage { kind: 6, id: id.0, next_readable_slot, ..none },
    }
}

fn msg(f: &FlatMessage) -> ConsensusMsg {
    let round = PaxosRound { round_group: f.round_group, leader: f.leader };
    match f.kind {
        1 => ConsensusMsg::Prepare { slot: f.slot, round, rv: promise(f.rv) },
        2 => ConsensusMsg::Accept { slot: f.slot, round, v: f.v },
        3 => ConsensusMsg::ForwardRequest { v: f.v },
        4 => ConsensusMsg::Commit { slot: f.slot, v: f.v },
        5 => ConsensusMsg::ReadRequest { id: ReadId(f.id) },
        6 => ConsensusMsg::ReadResponse { id: ReadId(f.id), next_readable_slot: f.next_readable_slot },
        kind => unreachable!("the engine sends kinds 1 to 6, not {kind}"),
    }
}

impl From<ConsensusMessage> for FlatMessage {
    fn from(message: ConsensusMessage) -> FlatMessage {
        FlatMessage { src: message.src, last_v: flat_option(message.last_v), ..flat_msg(message.msg) }
    }
}

/// The message in a reply of the engine.
pub(crate) fn message(f: &FlatMessage) -> ConsensusMessage {
    ConsensusMessage { msg: msg(f), src: f.src, last_v: option(f.last_v) }
}
