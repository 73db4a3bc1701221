//! Random calls and states for a single shard: any frame from any state, near enough to the state that every branch is met.
use crate::any_settings::all_below;
use crate::calls::{Call, Frame, Message, Mode, OPEN_READ_LIMIT, OpenRead, Promise, Proposer, Round, Settings, State, Words};
use crate::random::Random;

fn round(random: &mut Random, settings: &Settings) -> Round {
    let group = if random.chance(75) { 0 } else { random.below(3) };
    Round { group, leader: random.below(settings.process_count) }
}

fn promise(random: &mut Random, settings: &Settings) -> Promise {
    let v = random.below(4);
    if random.chance(if settings.mode.has_fast_path() { 75 } else { 8 }) {
        Promise::Fast { proposer: random.below(settings.process_count), v }
    } else {
        let accept_round = if random.chance(50) { None } else { Some(round(random, settings)) };
        Promise::Paxos { accept_round, v }
    }
}

fn slot_near(random: &mut Random, slot: usize) -> usize {
    match random.below(20) {
        0 => slot.saturating_add(1),
        1 => slot.saturating_sub(1),
        _ => slot,
    }
}

/// The round of the state, one that the own process leads, or another.
fn round_near(random: &mut Random, settings: &Settings, state: &State) -> Round {
    match state.round {
        Some(round) if random.chance(60) => round,
        _ if random.chance(50) => Round { group: 0, leader: settings.my_pid },
        _ => round(random, settings),
    }
}

fn message(random: &mut Random, settings: &Settings, state: &State, round: Round) -> Message {
    let slot = slot_near(random, state.slot);
    let v = match state.held {
        Some(held) if random.chance(60) => held.v(),
        _ => random.below(4),
    };
    match random.below(20) {
        0..=8 => {
            let held = state.held.filter(|_| random.chance(30));
            Message::Prepare { slot, round, promise: held.unwrap_or_else(|| promise(random, settings)) }
        }
        9..=16 => Message::Accept { slot, round, v },
        17 => Message::Commit { slot, v },
        18 if random.chance(50) => Message::ForwardRequest { v },
        18 => Message::ReadRequest { id: random.below(3) },
        _ => {
            let id = if state.reads.is_empty() { 0 } else { random.pick(&state.reads).id };
            Message::ReadResponse { id, next_readable_slot: slot }
        }
    }
}

pub fn words(random: &mut Random, settings: &Settings) -> Words {
    let requester =
        |random: &mut Random| if random.chance(40) { Some(settings.my_pid) } else { random.optional(20, settings.process_count) };
    let (requester, held_requester) = (requester(random), requester(random));
    Words { value_held: random.chance(85), requester, fast: random.chance(50), held_requester }
}

pub fn call(random: &mut Random, settings: &Settings, state: &State) -> Call {
    if random.chance(if state.held.is_none() { 25 } else { 8 }) {
        return Call::Propose(random.below(4));
    }
    if random.chance(5) {
        return Call::StartRead { tag: random.below(9), arrival_slot: random.below(4) };
    }
    let round = round_near(random, settings, state);
    let src = match random.below(10) {
        0 => settings.my_pid,
        1 | 2 => round.leader,
        _ => random.below(settings.process_count),
    };
    let last_v = match random.below(10) {
        0 => Some(random.below(4)),
        1..=4 => None,
        _ => state.last_v,
    };
    let message = message(random, settings, state, round);
    Call::Receive(Frame { src, last_v, message }, words(random, settings))
}

fn set_of(random: &mut Random, settings: &Settings, percent_empty: usize) -> u64 {
    if random.chance(percent_empty) {
        0
    } else if random.chance(3) {
        random.next()
    } else {
        random.next() & all_below(settings.process_count)
    }
}

/// Open reads in the order of their ids, below the next id, as the Rust's map has them.
fn reads(random: &mut Random) -> (usize, Vec<OpenRead>) {
    let count = match random.below(40) {
        0 => OPEN_READ_LIMIT,
        1 => OPEN_READ_LIMIT - 1,
        2..=20 => 0,
        _ => 1 + random.below(4),
    };
    let mut next_id = if random.chance(80) { random.below(5) } else { (1 << 63) - 1 - count * 3 };
    let mut reads = vec![];
    for _ in 0..count {
        next_id += random.below(3);
        let arrival_slot = if random.chance(80) { random.below(4) } else { random.at_a_limit() };
        let ready_count = if random.chance(95) { random.below(4) } else { random.below(40) };
        reads.push(OpenRead { id: next_id, tag: random.below(9), arrival_slot, ready_count, local_ready: random.chance(50) });
        next_id += 1;
    }
    let spent = random.chance(10);
    (if spent { random.pick(&[(1 << 63) - 1, 1 << 63, usize::MAX]).max(next_id) } else { next_id }, reads)
}

/// The half of EPaxos and SwiftPaxos. Every place below the process count is named, with scores that answers can make.
fn fill_fast_half(random: &mut Random, settings: &Settings, state: &mut State) {
    let count = settings.process_count;
    let clear = random.chance(40);
    let place = |proposer| Proposer { proposer, v: 0, epaxos_score: 2, swift_score: 0 };
    state.proposers = (0..count).map(place).collect();
    if clear {
        return;
    }
    state.fast_answer_set = set_of(random, settings, 20);
    state.fast_preaccepted = random.below(count + 1);
    state.swift_leader_answer = random.optional(50, 4);
    for place in &mut state.proposers {
        if random.chance(30) {
            state.fast_proposers |= 1 << place.proposer;
            place.v = random.below(4);
        }
        place.epaxos_score = 1 + random.below(4);
        place.swift_score = if settings.mode == Mode::SwiftPaxos { random.below(4) } else { 0 };
    }
}

/// A proposal meets each assertion on the fast half: one part of it alone is not clear.
fn about_to_propose(random: &mut Random, state: &mut State) {
    (state.round, state.held) = (None, None);
    let part = random.below(6);
    if part != 0 {
        state.fast_answer_set = 0;
    }
    if part != 1 {
        state.fast_preaccepted = 0;
    }
    if part != 2 {
        state.fast_proposers = 0;
    }
    if part != 3 {
        state.swift_leader_answer = None;
    }
    if part != 4 {
        state.proposers.iter_mut().for_each(|place| (place.epaxos_score, place.swift_score) = (2, 0));
    }
}

/// The own proposal is out, and answers are awaited.
fn gathering(random: &mut Random, settings: &Settings, state: &mut State) {
    let my_pid = settings.my_pid;
    let leader = if settings.mode == Mode::SwiftPaxos { settings.first_leader } else { my_pid };
    state.round = Some(Round { group: 0, leader });
    state.held = Some(Promise::Fast { proposer: my_pid, v: 1 });
    state.fast_proposers |= 1 << my_pid;
    if settings.mode == Mode::SwiftPaxos && random.chance(70) {
        nearly_committed(random, settings, state);
    }
}

/// In SwiftPaxos: nobody else has proposed, the leader's answer has come, and often the next one is enough.
fn nearly_committed(random: &mut Random, settings: &Settings, state: &mut State) {
    state.fast_proposers = 1 << settings.my_pid;
    state.swift_leader_answer = Some(1);
    state.fast_answer_set = set_of(random, settings, 70);
    state.fast_preaccepted = settings.replica_count - random.below(settings.replica_count.min(3));
}

pub fn state(random: &mut Random, settings: &Settings) -> State {
    let (next_id, reads) = reads(random);
    let slot = if random.chance(90) { random.below(3) } else { (1 << 63) - 3 + random.below(4) };
    let mut state = State {
        slot,
        last_v: random.optional(50, 4),
        left_fast_path: random.chance(50),
        round: if random.chance(25) { None } else { Some(round(random, settings)) },
        held: if random.chance(20) { None } else { Some(promise(random, settings)) },
        prepared_set: set_of(random, settings, 40),
        accepted_set: set_of(random, settings, 50),
        fast_answer_set: 0,
        fast_preaccepted: 0,
        fast_proposers: 0,
        swift_leader_answer: None,
        next_id,
        proposers: vec![],
        reads,
    };
    if settings.mode.has_fast_path() {
        fill_fast_half(random, settings, &mut state);
        match random.below(6) {
            0 => about_to_propose(random, &mut state),
            1 => gathering(random, settings, &mut state),
            _ => {}
        }
    }
    state
}
