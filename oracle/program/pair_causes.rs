//! Calls that are taken, and the causes that a change of such a call brings about. There are five processes, all of them live replicas; the own one is 0, in
//! slot 4 with last value 9, and a message is of round (1, leader) and has value 7. The majority is 3, the fast quorum 4.
use crate::calls::{Call, Frame, LARGEST_NUMBER, Message, Mode, Promise, Proposer, Round, Settings, State, Words};
use crate::pairs::{Case, Cause};

// ---- calls that are taken

pub fn settings(mode: Mode) -> Settings {
    Settings {
        process_count: 5,
        replica_count: 5,
        my_pid: 0,
        alive_replicas: 0b11111,
        first_leader: 0,
        mode,
        quorum: None,
        has_committers: false,
        committers: vec![],
        delegates: (0..5).collect(),
        whole_mhz_from: 0,
        windows: vec![],
    }
}

pub fn state(mode: Mode) -> State {
    let place = |proposer| Proposer { proposer, v: 7, epaxos_score: 2, swift_score: 0 };
    State {
        slot: 4,
        last_v: Some(9),
        left_fast_path: false,
        round: None,
        held: None,
        prepared_set: 0,
        accepted_set: 0,
        fast_answer_set: 0,
        fast_preaccepted: 0,
        fast_proposers: 0,
        swift_leader_answer: None,
        next_id: 0,
        proposers: if mode.has_fast_path() { (0..5).map(place).collect() } else { vec![] },
        reads: vec![],
    }
}

/// A message from process 1; the own process is the requester of its value.
pub fn received(mode: Mode, message: Message) -> Case {
    let words = Words { value_held: true, requester: Some(0), fast: true, held_requester: None };
    Case { settings: settings(mode), state: state(mode), call: Call::Receive(Frame { src: 1, last_v: Some(9), message }, words) }
}

fn of_round(mode: Mode, leader: usize, message: fn(Round) -> Message) -> Case {
    let round = Round { group: 1, leader };
    let mut case = received(mode, message(round));
    case.settings.first_leader = leader;
    case.state.round = Some(round);
    case.frame().src = 2;
    case
}

pub fn prepare(mode: Mode, leader: usize, promise: Promise) -> Case {
    let mut case = of_round(mode, leader, |round| Message::Prepare { slot: 4, round, promise: UNACCEPTED });
    *promise_of(&mut case) = promise;
    case
}

pub fn accept(mode: Mode, leader: usize) -> Case {
    of_round(mode, leader, |round| Message::Accept { slot: 4, round, v: 7 })
}

pub const UNACCEPTED: Promise = Promise::Paxos { accept_round: None, v: 7 };

pub fn fast(proposer: usize) -> Promise {
    Promise::Fast { proposer, v: 7 }
}

pub fn accepted_in(round: Round) -> Promise {
    Promise::Paxos { accept_round: Some(round), v: 7 }
}

/// Of a round after that of the message.
pub const LATER: Round = Round { group: 5, leader: 0 };

pub fn promise_of(case: &mut Case) -> &mut Promise {
    match &mut case.frame().message {
        Message::Prepare { promise, .. } => promise,
        other => panic!("no promise: {other:?}"),
    }
}

// ---- causes of many paths

pub const UNMADE: Cause = Cause { name: "unmade", number: 1, asserts: "", bring: |case| case.settings.replica_count = 0 };
pub const SPENT: Cause = Cause { name: "own slot spent", number: 2, asserts: "", bring: |case| case.state.slot = LARGEST_NUMBER };
pub const TOO_LARGE: Cause = Cause {
    name: "number above 2^63-1",
    number: 2,
    asserts: "",
    bring: |case| match &mut case.call {
        Call::Propose(number) | Call::StartRead { tag: number, .. } => *number = LARGEST_NUMBER + 1,
        Call::Receive(frame, _) => match &mut frame.message {
            Message::Prepare { promise: Promise::Fast { v, .. } | Promise::Paxos { v, .. }, .. } => *v = LARGEST_NUMBER + 1,
            Message::Accept { v: number, .. } | Message::ForwardRequest { v: number } | Message::Commit { v: number, .. } => {
                *number = LARGEST_NUMBER + 1
            }
            Message::ReadRequest { id } | Message::ReadResponse { id, .. } => *id = LARGEST_NUMBER + 1,
        },
    },
};
pub const NO_SUCH_PROCESS: Cause =
    Cause { name: "process not below the count", number: 3, asserts: "", bring: |case| case.words().held_requester = Some(5) };
pub const AHEAD: Cause = Cause { name: "slot ahead", number: 5, asserts: "", bring: |case| *case.slot() = 5 };
pub const OTHER_LAST: Cause =
    Cause { name: "other last value", number: 4, asserts: "last_v should be the same", bring: |case| case.frame().last_v = Some(8) };
pub const WAITS: Cause = Cause { name: "value awaited", number: 6, asserts: "", bring: |case| case.words().value_held = false };
pub const NO_REPLICA: Cause =
    Cause { name: "oneself no replica", number: 0, asserts: "", bring: |case| case.settings.alive_replicas &= !0b00001 };
pub const OLDER_SLOT: Cause = Cause { name: "older slot", number: 0, asserts: "", bring: |case| *case.slot() = 3 };
pub const OLDER_ROUND: Cause = Cause { name: "older round", number: 0, asserts: "", bring: |case| case.round().group = 0 };
pub const NOT_LIVE: Cause = Cause {
    name: "source not live",
    number: 7,
    asserts: "self.alive_replicas.contains(src)",
    bring: |case| {
        case.settings.alive_replicas &= !0b10000;
        case.frame().src = 4;
    },
};
pub const PROMISE_COUNTED: Cause = Cause {
    name: "promise counted and nothing held",
    number: 8,
    asserts: "self.prepared == 0",
    bring: |case| {
        case.state.held = None;
        case.state.prepared_set |= 0b00001;
    },
};
pub const NOT_FROM_LEADER: Cause = Cause {
    name: "answer to a leader that is not the source",
    number: 8,
    asserts: "delegate_or_leader == src || delegate_or_leader != round.leader",
    bring: |case| case.led_by(1),
};
pub const ACCEPT_COUNTED: Cause =
    Cause { name: "accept counted", number: 9, asserts: "assert_eq!(self.accepted, 0)", bring: |case| case.state.accepted_set = 0b00010 };
pub const OWN_ACCEPT_UNLIKE: Cause = Cause {
    name: "own accept unlike the held one",
    number: 9,
    asserts: "assert_eq!(self.max_rv, rv)",
    bring: |case| *promise_of(case) = Promise::Paxos { accept_round: Some(LATER), v: promise_of(case).v() },
};
pub const ACCEPT_UNLIKE: Cause = Cause {
    name: "accept unlike the held one",
    number: 9,
    asserts: "assert_eq!(self.max_rv, rv)",
    bring: |case| case.state.held = Some(accepted_in(LATER)),
};
pub const CLIENT_IGNORES: Cause =
    Cause { name: "client that is not the committer", number: 0, asserts: "", bring: |case| case.words().requester = Some(3) };
pub const NOT_FAST: Cause = Cause {
    name: "promise not a FastV",
    number: 8,
    asserts: "Can not receive",
    bring: |case| *promise_of(case) = Promise::Paxos { accept_round: None, v: promise_of(case).v() },
};
pub const SECOND_ANSWER: Cause = Cause {
    name: "second answer",
    number: 10,
    asserts: "Should never receive two preaccept",
    bring: |case| case.state.fast_answer_set |= 0b11110,
};
pub const FROM_LEADER: Cause = Cause {
    name: "answer of the leader",
    number: 8,
    asserts: "leaders don't respond with prepare messages",
    bring: |case| case.frame().src = case.round().leader,
};
pub const OUTSIDE_QUORUM: Cause =
    Cause { name: "leader outside the fixed quorum", number: 8, asserts: "!leader", bring: |case| case.settings.quorum = Some(0b11100) };
pub const NOT_COMMITTER: Cause = Cause {
    name: "accept of another, and oneself not the committer",
    number: 8,
    asserts: "i_am_3p_commiter",
    bring: |case| {
        case.led_by(1);
        if case.frame().src == 1 {
            case.frame().src = 2;
        }
        case.words().requester = Some(3);
        case.settings.committers.fill(1);
    },
};
pub const COMMITS_UNHELD: Cause = Cause {
    name: "commit of a value not held",
    number: 6,
    asserts: "Removing command that does not exist",
    bring: |case| {
        case.words().value_held = false;
        case.state.accepted_set = 0b01100;
    },
};
pub const COMMITS_FAST_UNHELD: Cause = Cause {
    name: "fast commit of a value not held",
    number: 6,
    asserts: "Removing command that does not exist",
    bring: |case| {
        case.words().value_held = false;
        case.state.fast_preaccepted = 4;
        case.state.fast_proposers = 0b00001;
        case.state.swift_leader_answer = Some(7);
    },
};
