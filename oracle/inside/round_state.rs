//! One shard of the real engine: its state as plain numbers, and one call. A child of round_state, so that it sees the private fields of the
//! round state, of paxos_family and of consensus.
use super::PaxosFamilyRoundState;
use crate::asserted::asserted;
use crate::calls::{
    Call, Commit, Done, Frame, Message, Mode, Outcome, Outgoing, PLACES, Promise, Proposer, Round, Served, Settings, State, Words,
};
use crate::consensus::ConsensusShardTrait;
use crate::consensus::command::Command;
use crate::consensus::message::{CommandBatch, ConsensusMessage, ConsensusMsg, ReadId};
use crate::consensus::paxos_family::message::{PaxosMsg, PaxosRound, RoundV};
use crate::consensus::paxos_family::{PFModeSetting, PaxosFamilyShard};
use crate::consensus::read_tracker::inside as reads;
use crate::host::{self, Requesters};
use crate::limits;
use crate::multi_sink::{MultiSink, ShardMultiSink};
use crate::topology::inside::topology;
use bit_set::BitSet;
use std::future::Future;
use std::panic::{AssertUnwindSafe, catch_unwind};
use std::pin::pin;
use std::sync::Arc;
use std::task::{Context, Poll, Waker};
use tokio::sync::Mutex;
use tokio::sync::mpsc::{Receiver, Sender, channel};

// ---- plain numbers to and from the types of upstream

fn plain_round(round: PaxosRound) -> Round {
    Round { group: round.round_group, leader: round.leader }
}

fn upstream_round(round: Round) -> PaxosRound {
    PaxosRound { round_group: round.group, leader: round.leader }
}

fn plain_promise(promise: RoundV) -> Promise {
    match promise {
        RoundV::FastV { proposer, v } => Promise::Fast { proposer, v },
        RoundV::PaxosV { accept_round, v } => Promise::Paxos { accept_round: accept_round.map(plain_round), v },
    }
}

fn upstream_promise(promise: Promise) -> RoundV {
    match promise {
        Promise::Fast { proposer, v } => RoundV::FastV { proposer, v },
        Promise::Paxos { accept_round, v } => RoundV::PaxosV { accept_round: accept_round.map(upstream_round), v },
    }
}

fn plain_message(message: &ConsensusMsg) -> Message {
    match message {
        ConsensusMsg::PaxosM(PaxosMsg::Prepare { slot, round, rv }) => {
            Message::Prepare { slot: *slot, round: plain_round(*round), promise: plain_promise(*rv) }
        }
        ConsensusMsg::PaxosM(PaxosMsg::Accept { slot, round, v }) => Message::Accept { slot: *slot, round: plain_round(*round), v: *v },
        ConsensusMsg::PaxosM(PaxosMsg::ForwardRequest { v }) => Message::ForwardRequest { v: *v },
        ConsensusMsg::Commit { slot, v } => Message::Commit { slot: *slot, v: *v },
        ConsensusMsg::ReadRequest { id } => Message::ReadRequest { id: id.0 },
        ConsensusMsg::ReadResponse { id, next_readable_slot } => {
            Message::ReadResponse { id: id.0, next_readable_slot: *next_readable_slot }
        }
        other => panic!("not a message of the Paxos family: {other:?}"),
    }
}

fn upstream_frame(frame: &Frame) -> ConsensusMessage {
    let msg = match frame.message {
        Message::Prepare { slot, round, promise } => {
            ConsensusMsg::PaxosM(PaxosMsg::Prepare { slot, round: upstream_round(round), rv: upstream_promise(promise) })
        }
        Message::Accept { slot, round, v } => ConsensusMsg::PaxosM(PaxosMsg::Accept { slot, round: upstream_round(round), v }),
        Message::ForwardRequest { v } => ConsensusMsg::PaxosM(PaxosMsg::ForwardRequest { v }),
        Message::Commit { slot, v } => ConsensusMsg::Commit { slot, v },
        Message::ReadRequest { id } => ConsensusMsg::ReadRequest { id: ReadId(id) },
        Message::ReadResponse { id, next_readable_slot } => ConsensusMsg::ReadResponse { id: ReadId(id), next_readable_slot },
    };
    ConsensusMessage { msg, src: frame.src, last_v: frame.last_v }
}

fn mask(set: &BitSet) -> u64 {
    set.iter().fold(0, |mask, member| mask | 1 << member)
}

fn fill(set: &mut BitSet, mask: u64) {
    set.clear();
    set.extend((0..PLACES).filter(|member| mask >> member & 1 == 1));
}

fn bit_set(mask: u64) -> BitSet {
    let mut set = BitSet::with_capacity(PLACES);
    fill(&mut set, mask);
    set
}

/// The handlers never wait: the sinks take everything at once.
fn finish<F: Future>(future: F) -> F::Output {
    match pin!(future).poll(&mut Context::from_waker(Waker::noop())) {
        Poll::Ready(output) => output,
        Poll::Pending => unreachable!("a handler waits"),
    }
}

// ---- the state

fn proposers(rounds: &PaxosFamilyRoundState, mode: Mode) -> Vec<Proposer> {
    let place = |proposer: usize| Proposer {
        proposer,
        v: rounds.fast_proposer_to_v.get(&proposer).copied().unwrap_or(0),
        epaxos_score: rounds.epaxos_proposer_scores[proposer],
        swift_score: rounds._swift_proposer_scores[proposer],
    };
    // The classic modes never touch the fast half: where no state line has filled it there is nothing to keep.
    let untouched = !mode.has_fast_path() && rounds.fast_proposer_to_v.is_empty();
    let places = if untouched { 0 } else { rounds.epaxos_proposer_scores.len() };
    (0..places).map(place).collect()
}

fn read_state(shard: &PaxosFamilyShard, mode: Mode) -> State {
    let rounds = &shard.round_state;
    State {
        slot: shard.slot,
        last_v: shard.last_v,
        left_fast_path: shard.slot_left_fast_path,
        round: rounds.round.map(plain_round),
        held: rounds.max_rv.map(plain_promise),
        prepared_set: mask(&rounds.prepared_set),
        accepted_set: mask(&rounds.accepted_set),
        fast_answer_set: mask(&rounds.fast_answer_set),
        fast_preaccepted: rounds.fast_preaccepted,
        fast_proposers: rounds.fast_proposer_to_v.keys().fold(0, |set, proposer| set | 1 << proposer),
        swift_leader_answer: rounds.swift_leader_answer,
        next_id: shard.read_tracker.next_id(),
        proposers: proposers(rounds, mode),
        reads: reads::open_reads(&shard.read_tracker),
    }
}

fn write_proposers(rounds: &mut PaxosFamilyRoundState, state: &State) {
    rounds.fast_proposer_to_v.clear();
    for proposer in (0..PLACES).filter(|proposer| state.fast_proposers >> proposer & 1 == 1) {
        rounds.fast_proposer_to_v.insert(proposer, 0);
    }
    // A state may name any of the 64 places; a shard that calls alone have made never looks behind the process count.
    rounds.epaxos_proposer_scores = vec![0; PLACES];
    rounds._swift_proposer_scores = vec![0; PLACES];
    for place in &state.proposers {
        rounds.epaxos_proposer_scores[place.proposer] = place.epaxos_score;
        rounds._swift_proposer_scores[place.proposer] = place.swift_score;
        if state.fast_proposers >> place.proposer & 1 == 1 {
            rounds.fast_proposer_to_v.insert(place.proposer, place.v);
        }
    }
}

fn write_state(shard: &mut PaxosFamilyShard, state: &State) {
    shard.slot = state.slot;
    shard.last_v = state.last_v;
    shard.slot_left_fast_path = state.left_fast_path;
    reads::set_reads(&mut shard.read_tracker, state.next_id, &state.reads);
    let rounds = &mut shard.round_state;
    rounds.round = state.round.map(upstream_round);
    rounds.max_rv = state.held.map(upstream_promise);
    fill(&mut rounds.prepared_set, state.prepared_set);
    fill(&mut rounds.accepted_set, state.accepted_set);
    fill(&mut rounds.fast_answer_set, state.fast_answer_set);
    // The counts of the Rust are the sizes of their sets.
    rounds.prepared = state.prepared_set.count_ones() as usize;
    rounds.accepted = state.accepted_set.count_ones() as usize;
    rounds.fast_answers = state.fast_answer_set.count_ones() as usize;
    rounds.fast_preaccepted = state.fast_preaccepted;
    rounds.swift_leader_answer = state.swift_leader_answer;
    write_proposers(rounds, state);
}

// ---- a shard and its calls

pub struct Engine {
    pub settings: Settings,
    /// The shard's state as the last call left it.
    pub state: State,
    shard: PaxosFamilyShard,
    committed_sender: Sender<Command>,
    committed: Receiver<Command>,
}

fn mode_setting(settings: &Settings) -> PFModeSetting {
    match settings.mode {
        Mode::Paxos => PFModeSetting::Paxos,
        Mode::MultiPaxos => PFModeSetting::MultiPaxos,
        Mode::MultiPaxos3P => PFModeSetting::MultiPaxos3P,
        Mode::EPaxos => PFModeSetting::EPaxos,
        Mode::Pando => PFModeSetting::Pando { delegates: Arc::new(settings.table(&settings.delegates)) },
        Mode::SwiftPaxos => PFModeSetting::SwiftPaxos { quorum: Arc::new(settings.quorum.map(bit_set)) },
    }
}

impl Engine {
    /// The settings are within the limits.
    pub fn new(settings: &Settings) -> Engine {
        let alive_replicas = bit_set(settings.alive_replicas);
        let mut sinks = MultiSink::new(settings.my_pid, settings.process_count, alive_replicas.clone(), true);
        for process in (0..settings.process_count).filter(|process| *process != settings.my_pid) {
            sinks.insert_sink(process, crate::connector::WrappedSink);
        }
        let shard = PaxosFamilyShard::new(
            &topology(settings.process_count, settings.replica_count, alive_replicas),
            settings.my_pid,
            ShardMultiSink { multi_sink: Arc::new(Mutex::new(sinks)), shard_id: 0 },
            // of the leader priorities the handlers read the first alone
            vec![settings.first_leader],
            settings.has_committers.then(|| settings.table(&settings.committers)),
            mode_setting(settings),
        );
        // a call commits one value and serves at most 128 reads
        let (committed_sender, committed) = channel(1024);
        let state = read_state(&shard, settings.mode);
        Engine { settings: settings.clone(), state, shard, committed_sender, committed }
    }

    pub fn set_state(&mut self, state: &State) {
        write_state(&mut self.shard, state);
        self.state = read_state(&self.shard, self.settings.mode);
    }

    /// A refused call leaves the shard: what the Rust changed before its panic is undone.
    pub fn call(&mut self, call: &Call) -> Outcome {
        host::PANIC.take();
        if let Some(number) = limits::refusal(&self.settings, &self.state, call) {
            return Err(number);
        }
        host::SENT.with_borrow_mut(|sent| sent.clear());
        self.shard.queued_commands.clear();
        host::IN_CALL.set(true);
        let outcome = catch_unwind(AssertUnwindSafe(|| self.attempt(call))).unwrap_or_else(|_| Err(refusal_of_panic(call)));
        host::IN_CALL.set(false);
        if outcome.is_ok() {
            self.state = read_state(&self.shard, self.settings.mode);
        } else {
            write_state(&mut self.shard, &self.state);
            while self.committed.try_recv().is_ok() {}
        }
        outcome
    }

    fn attempt(&mut self, call: &Call) -> Outcome {
        let mut done = Done::default();
        match call {
            Call::Propose(v) => self.propose(*v)?,
            Call::StartRead { tag, arrival_slot } => {
                let id = self.shard.read_tracker.next_id();
                finish(self.shard.start_read(reads::command(id, *tag, *arrival_slot))).unwrap();
            }
            Call::Receive(frame, words) => self.receive(frame, words, &mut done)?,
        }
        host::SENT.with_borrow(|sent| {
            done.sent.extend(sent.iter().map(|sent| Outgoing {
                destination: sent.destination,
                // the sink passes over a first destination that is the sender itself
                first: sent.first.filter(|process| *process != self.settings.my_pid),
                last_v: sent.message.last_v,
                message: plain_message(&sent.message.msg),
            }))
        });
        Ok(done)
    }

    fn propose(&mut self, v: usize) -> Result<(), u32> {
        if !self.shard.can_propose() {
            return Err(11);
        }
        host::REQUESTERS.set(Requesters::default());
        finish(self.shard.propose(v, false)).unwrap();
        Ok(())
    }

    fn receive(&mut self, frame: &Frame, words: &Words, done: &mut Done) -> Result<(), u32> {
        let message = upstream_frame(frame);
        let message_v = message.get_v();
        host::REQUESTERS.set(Requesters { message_v, of_message: words.requester, of_held: words.held_requester });
        if let Some(v) = message_v.filter(|_| words.value_held) {
            self.shard.queued_commands.insert(v, held_value(self.settings.my_pid));
        }
        if !self.shard.ready_to_process(&message) {
            return Err(if message.get_slot() > Some(self.shard.slot) { 5 } else { 6 });
        }
        let slot = self.shard.slot;
        let batch = finish(self.shard.full_process_message(message, !words.fast)).unwrap();
        finish(self.shard.commit_commands(&self.committed_sender, batch));
        while let Ok(command) = self.committed.try_recv() {
            let report = command.report.expect("every command here is reported");
            if command.read_only {
                done.served.push(Served { id: command.requester, tag: command.shard, waited_for: report.waited_for, fast: report.fast });
            } else {
                done.commit = Some(Commit { slot, v: self.shard.last_v.unwrap(), fast: report.fast });
            }
        }
        Ok(())
    }
}

/// A stored command. Its requester is the own process, since `commit_commands` reports the fast mark to that one alone.
fn held_value(my_pid: usize) -> CommandBatch {
    CommandBatch::Single(Command { requester: my_pid, shard: 0, command: vec![], read_only: false, arrival_slot: 0, report: None })
}

/// The row of document 01's table for the panic that the Rust has met.
fn refusal_of_panic(call: &Call) -> u32 {
    if matches!(call, Call::Propose(_)) {
        return 11;
    }
    let panic = asserted();
    let rows = [
        ("last_v should be the same", 4),
        ("Removing command that does not exist", 6),
        ("self.alive_replicas.contains(src)", 7),
        // of receive_accept and of self_accept
        ("assert_eq!(self.max_rv, rv)", 9),
        ("assert_eq!(self.accepted, 0)", 9),
        ("Should never receive two preaccept", 10),
    ];
    rows.iter().find(|(text, _)| panic.contains(text)).map_or(8, |(_, number)| *number)
}
