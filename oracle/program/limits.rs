//! Rows 2, 3 and 12 of document 01's table, in front of the Rust, which has no such limits.
use crate::calls::{Call, Frame, LARGEST_NUMBER, Message, OPEN_READ_LIMIT, Promise, Round, Settings, State, Words};

/// The numbers of a call, by what may stand there.
#[derive(Default)]
struct Numbers {
    slots: Vec<usize>,
    others: Vec<usize>,
    processes: Vec<usize>,
}

impl Numbers {
    fn round(&mut self, round: Round) {
        self.others.push(round.group);
        self.processes.push(round.leader);
    }

    fn promise(&mut self, promise: Promise) {
        self.others.push(promise.v());
        match promise {
            Promise::Fast { proposer, .. } => self.processes.push(proposer),
            Promise::Paxos { accept_round: Some(round), .. } => self.round(round),
            Promise::Paxos { accept_round: None, .. } => {}
        }
    }

    fn message(&mut self, message: Message) {
        match message {
            Message::Prepare { slot, round, promise } => {
                self.slots.push(slot);
                self.round(round);
                self.promise(promise);
            }
            Message::Accept { slot, round, v } => {
                self.slots.push(slot);
                self.round(round);
                self.others.push(v);
            }
            Message::ForwardRequest { v } => self.others.push(v),
            Message::Commit { slot, v } => {
                self.slots.push(slot);
                self.others.push(v);
            }
            Message::ReadRequest { id } => self.others.push(id),
            // "A ReadResponse's slot field may be 2^63−1."
            Message::ReadResponse { id, next_readable_slot } => self.others.extend([id, next_readable_slot]),
        }
    }

    fn received(&mut self, frame: &Frame, words: &Words) {
        self.message(frame.message);
        self.processes.push(frame.src);
        self.others.extend(frame.last_v);
        self.processes.extend(words.requester);
        self.processes.extend(words.held_requester);
    }

    fn too_large(&self) -> bool {
        let number = |number: &usize| *number > LARGEST_NUMBER;
        self.slots.iter().any(|slot| *slot >= LARGEST_NUMBER) || self.others.iter().any(number) || self.processes.iter().any(number)
    }
}

/// 2 before 3, and for a new read 2 before 12. A shard at slot 2^63−1 is spent.
pub fn refusal(settings: &Settings, state: &State, call: &Call) -> Option<u32> {
    let mut numbers = Numbers::default();
    let mut no_room = false;
    match call {
        Call::Propose(v) => numbers.others.push(*v),
        Call::StartRead { tag, arrival_slot } => {
            numbers.others.push(*tag);
            numbers.slots.push(*arrival_slot);
            no_room = state.reads.len() >= OPEN_READ_LIMIT || state.next_id > LARGEST_NUMBER;
        }
        Call::Receive(frame, words) => numbers.received(frame, words),
    }
    if state.slot >= LARGEST_NUMBER || numbers.too_large() {
        Some(2)
    } else if numbers.processes.iter().any(|process| *process >= settings.process_count) {
        Some(3)
    } else {
        no_room.then_some(12)
    }
}
