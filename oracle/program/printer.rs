//! The printer of call lines and of answer lines (docs/ORACLE.md).
use crate::calls::{Call, Frame, Line, MODES, Message, Outcome, Outgoing, Promise, Round, Settings, State, Words};

pub fn push_text(out: &mut Vec<u8>, text: &str) {
    out.extend_from_slice(text.as_bytes());
}

pub fn push_number(out: &mut Vec<u8>, mut number: usize) {
    let mut digits = [0; 20];
    let mut first = digits.len();
    loop {
        first -= 1;
        digits[first] = b'0' + (number % 10) as u8;
        number /= 10;
        if number == 0 {
            break;
        }
    }
    out.extend_from_slice(&digits[first..]);
}

/// Each number behind a space.
fn push_numbers(out: &mut Vec<u8>, numbers: &[usize]) {
    for number in numbers {
        out.push(b' ');
        push_number(out, *number);
    }
}

// ---- call lines

fn push_optional(out: &mut Vec<u8>, number: Option<usize>) {
    push_numbers(out, &[number.is_some() as usize, number.unwrap_or(0)]);
}

fn promise_numbers(promise: Option<Promise>) -> [usize; 4] {
    match promise {
        Some(Promise::Fast { proposer, v }) => [0, proposer, 0, v],
        Some(Promise::Paxos { accept_round: None, v }) => [1, 0, 0, v],
        Some(Promise::Paxos { accept_round: Some(round), v }) => [2, round.group, round.leader, v],
        None => [3, 0, 0, 0],
    }
}

fn push_settings_line(out: &mut Vec<u8>, settings: &Settings) {
    let mode = MODES.iter().position(|mode| *mode == settings.mode).unwrap();
    let alive_replicas = settings.alive_replicas as usize;
    push_number(out, 1);
    push_numbers(out, &[settings.process_count, settings.replica_count, settings.my_pid, alive_replicas, settings.first_leader, mode]);
    push_optional(out, settings.quorum.map(|set| set as usize));
    push_numbers(out, &[settings.has_committers as usize, settings.committers.len()]);
    push_numbers(out, &settings.committers);
    push_numbers(out, &[settings.delegates.len()]);
    push_numbers(out, &settings.delegates);
    push_numbers(out, &[settings.whole_mhz_from, settings.windows.len()]);
    for window in &settings.windows {
        push_numbers(out, &window.start.numbers());
        push_numbers(out, &window.end.numbers());
    }
}

fn push_state_line(out: &mut Vec<u8>, state: &State) {
    push_numbers(out, &[state.slot]);
    push_optional(out, state.last_v);
    push_numbers(out, &[state.left_fast_path as usize]);
    let round = state.round.unwrap_or(Round { group: 0, leader: 0 });
    push_numbers(out, &[state.round.is_some() as usize, round.group, round.leader]);
    push_numbers(out, &promise_numbers(state.held));
    push_numbers(out, &[state.prepared_set as usize, state.accepted_set as usize, state.fast_answer_set as usize]);
    push_numbers(out, &[state.fast_preaccepted, state.fast_proposers as usize]);
    push_optional(out, state.swift_leader_answer);
    push_numbers(out, &[state.next_id, state.proposers.len()]);
    for place in &state.proposers {
        push_numbers(out, &[place.proposer, place.v, place.epaxos_score, place.swift_score]);
    }
    push_numbers(out, &[state.reads.len()]);
    for read in &state.reads {
        push_numbers(out, &[read.id, read.tag, read.arrival_slot, read.ready_count, read.local_ready as usize]);
    }
}

fn message_kind(message: Message) -> usize {
    match message {
        Message::Prepare { .. } => 5,
        Message::Accept { .. } => 6,
        Message::ForwardRequest { .. } => 7,
        Message::Commit { .. } => 8,
        Message::ReadRequest { .. } => 9,
        Message::ReadResponse { .. } => 10,
    }
}

fn push_frame_line(out: &mut Vec<u8>, frame: &Frame, words: &Words) {
    push_number(out, message_kind(frame.message));
    push_numbers(out, &[frame.src]);
    push_optional(out, frame.last_v);
    match frame.message {
        Message::Prepare { slot, round, promise } => {
            push_numbers(out, &[slot, round.group, round.leader]);
            push_numbers(out, &promise_numbers(Some(promise)));
        }
        Message::Accept { slot, round, v } => push_numbers(out, &[slot, round.group, round.leader, v]),
        Message::ForwardRequest { v } => push_numbers(out, &[v]),
        Message::Commit { slot, v } => push_numbers(out, &[slot, v]),
        Message::ReadRequest { id } => push_numbers(out, &[id]),
        Message::ReadResponse { id, next_readable_slot } => push_numbers(out, &[id, next_readable_slot]),
    }
    push_numbers(out, &[words.value_held as usize]);
    push_optional(out, words.requester);
    push_numbers(out, &[words.fast as usize]);
    push_optional(out, words.held_requester);
}

pub fn call_kind(call: &Call) -> usize {
    match call {
        Call::Propose(_) => 3,
        Call::StartRead { .. } => 4,
        Call::Receive(frame, _) => message_kind(frame.message),
    }
}

pub fn push_line(out: &mut Vec<u8>, line: &Line) {
    match line {
        Line::Settings(settings) => push_settings_line(out, settings),
        Line::State(state) => {
            push_number(out, 2);
            push_state_line(out, state);
        }
        Line::Call(call) => match call {
            Call::Propose(v) => {
                push_number(out, 3);
                push_numbers(out, &[*v]);
            }
            Call::StartRead { tag, arrival_slot } => {
                push_number(out, 4);
                push_numbers(out, &[*tag, *arrival_slot]);
            }
            Call::Receive(frame, words) => push_frame_line(out, frame, words),
        },
    }
    out.push(b'\n');
}

// ---- answer lines

/// The number behind a space, or `-` for none.
fn push_dash(out: &mut Vec<u8>, number: Option<usize>) {
    match number {
        Some(number) => push_numbers(out, &[number]),
        None => push_text(out, " -"),
    }
}

fn push_promise(out: &mut Vec<u8>, promise: Promise) {
    match promise {
        Promise::Fast { proposer, v } => {
            push_text(out, " fast");
            push_numbers(out, &[proposer, v]);
        }
        Promise::Paxos { accept_round: None, v } => {
            push_text(out, " paxos -");
            push_numbers(out, &[v]);
        }
        Promise::Paxos { accept_round: Some(round), v } => {
            push_text(out, " paxos");
            push_numbers(out, &[round.group, round.leader, v]);
        }
    }
}

fn push_message(out: &mut Vec<u8>, message: Message) {
    let (name, numbers): (&str, &[usize]) = match message {
        Message::Prepare { slot, round, .. } => (" prepare", &[slot, round.group, round.leader]),
        Message::Accept { slot, round, v } => (" accept", &[slot, round.group, round.leader, v]),
        Message::ForwardRequest { v } => (" forward", &[v]),
        Message::Commit { slot, v } => (" commit", &[slot, v]),
        Message::ReadRequest { id } => (" read_request", &[id]),
        Message::ReadResponse { id, next_readable_slot } => (" read_response", &[id, next_readable_slot]),
    };
    push_text(out, name);
    push_numbers(out, numbers);
    if let Message::Prepare { promise, .. } = message {
        push_promise(out, promise);
    }
}

fn push_outgoing(out: &mut Vec<u8>, outgoing: &Outgoing) {
    push_text(out, " | send ");
    match outgoing.destination {
        Some(process) => push_number(out, process),
        None => push_text(out, "all"),
    }
    push_dash(out, outgoing.first);
    push_dash(out, outgoing.last_v);
    push_message(out, outgoing.message);
}

pub fn push_outcome(out: &mut Vec<u8>, outcome: &Outcome) {
    let done = match outcome {
        Ok(done) => done,
        Err(number) => {
            push_text(out, "refused");
            return push_numbers(out, &[*number as usize]);
        }
    };
    push_text(out, "done");
    done.sent.iter().for_each(|outgoing| push_outgoing(out, outgoing));
    if let Some(commit) = &done.commit {
        push_text(out, " | commit");
        push_numbers(out, &[commit.slot, commit.v, commit.fast as usize]);
    }
    for served in &done.served {
        push_text(out, " | served");
        push_numbers(out, &[served.id, served.tag, served.waited_for, served.fast as usize]);
    }
}

pub fn push_shard(out: &mut Vec<u8>, state: &State) {
    push_text(out, " | shard");
    push_numbers(out, &[state.slot]);
    push_dash(out, state.last_v);
    push_numbers(out, &[state.left_fast_path as usize]);
    match state.round {
        Some(round) => push_numbers(out, &[round.group, round.leader]),
        None => push_text(out, " -"),
    }
    match state.held {
        Some(promise) => push_promise(out, promise),
        None => push_text(out, " -"),
    }
    push_numbers(out, &[state.prepared_set as usize, state.accepted_set as usize, state.fast_answer_set as usize]);
    push_numbers(out, &[state.fast_preaccepted, state.fast_proposers as usize]);
    push_dash(out, state.swift_leader_answer);
    push_numbers(out, &[state.next_id]);
    for place in state.proposers.iter().filter(|place| state.fast_proposers >> place.proposer & 1 == 1) {
        push_text(out, " | proposer");
        push_numbers(out, &[place.proposer, place.v, place.epaxos_score, place.swift_score]);
    }
    for read in &state.reads {
        push_text(out, " | read");
        push_numbers(out, &[read.id, read.tag, read.arrival_slot, read.ready_count, read.local_ready as usize]);
    }
}
