//! Times upstream's shard call by call. A child of round_state, so that it sees the private fields of the round state, of paxos_family and of
//! consensus. A message's call is what `Consensus::run` makes of it: `ready_to_process`, `full_process_message`, `commit_commands`.
use crate::consensus::ConsensusShardTrait;
use crate::consensus::command::Command;
use crate::consensus::message::{CommandBatch, ConsensusMessage, ConsensusMsg, ReadId};
use crate::consensus::paxos_family::message::{PaxosMsg, PaxosRound, RoundV};
use crate::consensus::paxos_family::{PFModeSetting, PaxosFamilyShard};
use crate::consensus::read_tracker::inside::{self as reads, Reads};
use crate::host::{self, Kept};
use crate::message::Message;
use crate::multi_sink::{MultiSink, ShardMultiSink};
use crate::topology::inside::topology;
use bincode::Options;
use bit_set::BitSet;
use chanbook_shard as plain;
use std::collections::VecDeque;
use std::future::Future;
use std::hint::black_box;
use std::pin::pin;
use std::sync::Arc;
use std::task::{Context, Poll, Waker};
use std::time::Instant;
use tokio::sync::Mutex;
use tokio::sync::mpsc::{Receiver, Sender, channel};

// ---- from the types of the Rust crate

fn round(round: plain::PaxosRound) -> PaxosRound {
    PaxosRound { round_group: round.round_group as usize, leader: round.leader as usize }
}

fn promise(rv: plain::RoundV) -> RoundV {
    match rv {
        plain::RoundV::FastV { proposer, v } => RoundV::FastV { proposer: proposer as usize, v: v as usize },
        plain::RoundV::PaxosV { accept_round, v } => RoundV::PaxosV { accept_round: accept_round.map(round), v: v as usize },
    }
}

fn message(delivery: &plain::Delivery) -> ConsensusMessage {
    use plain::ConsensusMsg as Plain;
    let msg = match delivery.message.msg {
        Plain::Prepare { slot, round: r, rv } => {
            ConsensusMsg::PaxosM(PaxosMsg::Prepare { slot: slot as usize, round: round(r), rv: promise(rv) })
        }
        Plain::Accept { slot, round: r, v } => {
            ConsensusMsg::PaxosM(PaxosMsg::Accept { slot: slot as usize, round: round(r), v: v as usize })
        }
        Plain::ForwardRequest { v } => ConsensusMsg::PaxosM(PaxosMsg::ForwardRequest { v: v as usize }),
        Plain::Commit { slot, v } => ConsensusMsg::Commit { slot: slot as usize, v: v as usize },
        Plain::ReadRequest { id } => ConsensusMsg::ReadRequest { id: ReadId(id.0 as usize) },
        Plain::ReadResponse { id, next_readable_slot } => {
            ConsensusMsg::ReadResponse { id: ReadId(id.0 as usize), next_readable_slot: next_readable_slot as usize }
        }
    };
    ConsensusMessage { msg, src: delivery.message.src as usize, last_v: delivery.message.last_v.map(|v| v as usize) }
}

fn members(set: u64) -> BitSet {
    (0..64).filter(|p| set >> p & 1 == 1).collect()
}

fn table(numbers: &[u64; 64]) -> Vec<usize> {
    numbers.iter().map(|n| *n as usize).collect()
}

fn mode(setting: &plain::PFModeSetting) -> PFModeSetting {
    match setting {
        plain::PFModeSetting::Paxos => PFModeSetting::Paxos,
        plain::PFModeSetting::MultiPaxos => PFModeSetting::MultiPaxos,
        plain::PFModeSetting::MultiPaxos3P => PFModeSetting::MultiPaxos3P,
        plain::PFModeSetting::EPaxos => PFModeSetting::EPaxos,
        plain::PFModeSetting::Pando { delegates } => PFModeSetting::Pando { delegates: Arc::new(table(delegates)) },
        plain::PFModeSetting::SwiftPaxos { quorum } => PFModeSetting::SwiftPaxos { quorum: Arc::new(quorum.map(members)) },
    }
}

type Sinks = Arc<Mutex<MultiSink>>;

fn new_sinks(settings: &plain::Settings) -> Sinks {
    let (count, me) = (settings.process_count as usize, settings.my_pid as usize);
    let mut sinks = MultiSink::new(me, count, members(settings.alive_replicas), true);
    for process in (0..count).filter(|process| *process != me) {
        sinks.insert_sink(process, crate::connector::WrappedSink(process));
    }
    Arc::new(Mutex::new(sinks))
}

fn new_shard(settings: &plain::Settings, sinks: &Sinks) -> PaxosFamilyShard {
    let (count, me) = (settings.process_count as usize, settings.my_pid as usize);
    let alive = members(settings.alive_replicas);
    let sinks = ShardMultiSink { multi_sink: sinks.clone(), shard_id: me };
    let committers = settings.committers.as_ref().map(table);
    let first = settings.first_leader as usize;
    let leaders = std::iter::once(first).chain((0..count).filter(|p| *p != first)).collect();
    PaxosFamilyShard::new(&topology(count, settings.replica_count as usize, alive), me, sinks, leaders, committers, mode(&settings.mode))
}

fn held_value(requester: usize) -> CommandBatch {
    CommandBatch::Single(Command { requester, shard: 0, command: vec![], read_only: false, arrival_slot: 0, report: None })
}

// ---- calls

/// The handlers never wait: the sinks take everything at once.
#[inline(always)]
fn finish<F: Future>(future: F) -> F::Output {
    match pin!(future).poll(&mut Context::from_waker(Waker::noop())) {
        Poll::Ready(output) => output,
        Poll::Pending => unreachable!("a handler waits"),
    }
}

#[inline(never)]
fn receive(shard: &mut PaxosFamilyShard, committed: &Sender<Command>, message: ConsensusMessage) -> bool {
    if !shard.ready_to_process(&message) {
        black_box(&message);
        return false;
    }
    let batch = finish(shard.full_process_message(message, false)).unwrap();
    finish(shard.commit_commands(committed, batch))
}

#[inline(never)]
fn propose(shard: &mut PaxosFamilyShard, v: usize) {
    finish(shard.propose(v, false)).unwrap()
}

#[inline(never)]
fn start_read(shard: &mut PaxosFamilyShard, read: Command) {
    finish(shard.start_read(read)).unwrap()
}

#[derive(Clone)]
enum Call {
    Propose(usize),
    StartRead(Command),
    Receive(ConsensusMessage),
}

fn call_of(call: &plain::Call) -> Call {
    match call {
        plain::Call::Propose(v) => Call::Propose(*v as usize),
        plain::Call::StartRead { tag, arrival_slot } => Call::StartRead(reads::command(*tag as usize, *arrival_slot as usize)),
        plain::Call::Receive(delivery) => Call::Receive(message(delivery)),
    }
}

fn make(shard: &mut PaxosFamilyShard, committed: &Sender<Command>, call: Call) {
    match call {
        Call::Propose(v) => propose(shard, v),
        Call::StartRead(read) => start_read(shard, read),
        Call::Receive(message) => {
            black_box(receive(shard, committed, message));
        }
    }
}

fn value_in(call: &Call) -> Option<usize> {
    match call {
        Call::Propose(v) => Some(*v),
        Call::StartRead(_) => None,
        Call::Receive(message) => message.get_v(),
    }
}

// ---- the state, copied and put back

struct Copied {
    slot: usize,
    last_v: Option<usize>,
    left_fast_path: bool,
    round: Option<PaxosRound>,
    max_rv: Option<RoundV>,
    sets: [BitSet; 3],
    counts: [usize; 4],
    proposers: Vec<(usize, usize)>,
    epaxos_scores: Vec<usize>,
    swift_scores: Vec<usize>,
    swift_leader_answer: Option<usize>,
    reads: Reads,
    values: Vec<(usize, CommandBatch)>,
}

fn copied(shard: &PaxosFamilyShard) -> Copied {
    let rounds = &shard.round_state;
    Copied {
        slot: shard.slot,
        last_v: shard.last_v,
        left_fast_path: shard.slot_left_fast_path,
        round: rounds.round,
        max_rv: rounds.max_rv,
        sets: [&rounds.prepared_set, &rounds.accepted_set, &rounds.fast_answer_set].map(BitSet::clone),
        counts: [rounds.prepared, rounds.accepted, rounds.fast_answers, rounds.fast_preaccepted],
        proposers: rounds.fast_proposer_to_v.iter().map(|(p, v)| (*p, *v)).collect(),
        epaxos_scores: rounds.epaxos_proposer_scores.clone(),
        swift_scores: rounds._swift_proposer_scores.clone(),
        swift_leader_answer: rounds.swift_leader_answer,
        reads: reads::copied(&shard.read_tracker),
        values: shard.queued_commands.iter().map(|(v, batch)| (*v, batch.clone())).collect(),
    }
}

fn put_back(shard: &mut PaxosFamilyShard, state: &Copied) {
    shard.slot = state.slot;
    shard.last_v = state.last_v;
    shard.slot_left_fast_path = state.left_fast_path;
    reads::put_back(&mut shard.read_tracker, &state.reads);
    shard.queued_commands.clear();
    shard.queued_commands.extend(state.values.iter().cloned());
    let rounds = &mut shard.round_state;
    rounds.round = state.round;
    rounds.max_rv = state.max_rv;
    let sets = [&mut rounds.prepared_set, &mut rounds.accepted_set, &mut rounds.fast_answer_set];
    for (set, before) in sets.into_iter().zip(&state.sets) {
        set.clear();
        set.union_with(before);
    }
    [rounds.prepared, rounds.accepted, rounds.fast_answers, rounds.fast_preaccepted] = state.counts;
    rounds.fast_proposer_to_v.clear();
    rounds.fast_proposer_to_v.extend(state.proposers.iter().copied());
    rounds.epaxos_proposer_scores.copy_from_slice(&state.epaxos_scores);
    rounds._swift_proposer_scores.copy_from_slice(&state.swift_scores);
    rounds.swift_leader_answer = state.swift_leader_answer;
}

/// Shards in one state, each of which gets the same call between two readings of the clock, and is then put back.
pub struct Prepared {
    shards: Vec<PaxosFamilyShard>,
    before: Copied,
    call: Call,
    committed_sender: Sender<Command>,
    committed: Receiver<Command>,
}

impl Prepared {
    pub fn new(settings: &plain::Settings, before: &[plain::Call], call: &plain::Call, count: usize) -> Prepared {
        let (committed_sender, mut committed) = channel(8192);
        let calls: Vec<Call> = before.iter().map(call_of).collect();
        let call = call_of(call);
        let one = || {
            let mut shard = new_shard(settings, &new_sinks(settings));
            for v in calls.iter().chain([&call]).filter_map(value_in) {
                shard.queued_commands.insert(v, held_value(settings.my_pid as usize));
            }
            for call in &calls {
                make(&mut shard, &committed_sender, call.clone());
                while committed.try_recv().is_ok() {}
            }
            shard
        };
        let shards: Vec<PaxosFamilyShard> = std::iter::repeat_with(one).take(count).collect();
        let before = copied(&shards[0]);
        Prepared { shards, before, call, committed_sender, committed }
    }

    fn reset(&mut self) {
        while self.committed.try_recv().is_ok() {}
        for shard in &mut self.shards {
            put_back(shard, &self.before);
        }
    }

    /// What one call does: how far the slot goes, how many reads are open after it, whether it sends.
    pub fn effect(&mut self) -> (u64, usize, bool) {
        host::COUNT.set(0);
        let shard = &mut self.shards[0];
        make(shard, &self.committed_sender, self.call.clone());
        let effect = ((shard.slot - self.before.slot) as u64, reads::copied(&shard.read_tracker).open.len(), host::COUNT.get() > 0);
        self.reset();
        effect
    }

    /// Nanoseconds of one call on each shard.
    pub fn round(&mut self) -> u128 {
        let (shards, committed) = (&mut self.shards, &self.committed_sender);
        let time = match &self.call {
            Call::Propose(v) => timed(shards, *v, propose),
            Call::StartRead(read) => timed(shards, read.clone(), start_read),
            Call::Receive(message) => timed(shards, message.clone(), |shard, message| {
                black_box(receive(shard, committed, message));
            }),
        };
        self.reset();
        time
    }
}

/// The arguments are copied outside the clock.
fn timed<A: Clone>(shards: &mut [PaxosFamilyShard], argument: A, mut call: impl FnMut(&mut PaxosFamilyShard, A)) -> u128 {
    let arguments = vec![argument; shards.len()];
    let begin = Instant::now();
    for (shard, argument) in shards.iter_mut().zip(arguments) {
        call(shard, argument);
    }
    begin.elapsed().as_nanos()
}

/// A group of five, whose member 0 proposes slot after slot; every message is delivered, in the order of sending.
pub struct Cycle {
    settings: plain::Settings,
    queue: VecDeque<(usize, ConsensusMessage)>,
}

impl Cycle {
    pub fn new(settings: &plain::Settings) -> Cycle {
        Cycle { settings: settings.clone(), queue: VecDeque::new() }
    }

    fn collect(&mut self, count: usize) {
        host::KEPT.with_borrow_mut(|kept| {
            for one in kept.drain(..) {
                match one {
                    Kept::Message(Message::ConsensusM { msg, .. }, Some(to), _) => self.queue.push_back((to, msg)),
                    Kept::Message(Message::ConsensusM { msg, .. }, None, source) => {
                        self.queue.extend((0..count).filter(|to| *to != source).map(|to| (to, msg.clone())))
                    }
                    Kept::Message(..) => unreachable!("a shard sends messages of consensus"),
                    Kept::Frame(bytes, to) => match bincode::DefaultOptions::new().deserialize::<Message>(&bytes) {
                        Ok(Message::ConsensusM { msg, .. }) => self.queue.push_back((to, msg)),
                        _ => unreachable!("a shard sends messages of consensus"),
                    },
                }
            }
        });
    }

    /// Nanoseconds of so many slots, and the calls made.
    pub fn run(&mut self, slots: u64) -> (u128, u64) {
        let count = self.settings.process_count as usize;
        let member = |my_pid| {
            let settings = plain::Settings { my_pid, ..self.settings.clone() };
            new_shard(&settings, &new_sinks(&settings))
        };
        let mut group: Vec<PaxosFamilyShard> = (0..self.settings.process_count).map(member).collect();
        let (committed_sender, mut committed) = channel(8192);
        host::KEEP.set(true);
        let (mut calls, mut commits) = (0, 0);
        let begin = Instant::now();
        for slot in 0..slots as usize {
            let v = 2 * count * slot;
            for shard in &mut group {
                shard.queued_commands.insert(v, held_value(0));
            }
            propose(&mut group[0], v);
            calls += 1;
            self.collect(count);
            while let Some((to, message)) = self.queue.pop_front() {
                commits += u64::from(receive(&mut group[to], &committed_sender, message));
                while committed.try_recv().is_ok() {}
                calls += 1;
                self.collect(count);
            }
        }
        let time = begin.elapsed().as_nanos();
        host::KEEP.set(false);
        assert_eq!(commits, self.settings.process_count * slots, "every member commits every slot");
        (time, calls)
    }
}

/// Shards that are kept, to count the memory that they take. All have the same sinks, as in production.
pub struct Shards {
    settings: plain::Settings,
    sinks: Sinks,
    shards: Vec<PaxosFamilyShard>,
}

impl Shards {
    pub fn new(settings: &plain::Settings) -> Shards {
        Shards { settings: settings.clone(), sinks: new_sinks(settings), shards: Vec::with_capacity(1) }
    }

    /// Keeps one more, in the place that is there for it, with so many open reads. Gives the bytes of the place.
    pub fn keep(&mut self, open_reads: usize) -> usize {
        let mut shard = new_shard(&self.settings, &self.sinks);
        for tag in 0..open_reads {
            start_read(&mut shard, reads::command(tag, 0));
        }
        self.shards.push(shard);
        size_of::<PaxosFamilyShard>()
    }
}
