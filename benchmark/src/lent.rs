//! This engine's side: through the C boundary, and through the Rust crate above it.
use crate::cases::requester;
use chanbook_shard::sys::{self, FlatCall, FlatMessage, FlatOption, FlatReply, FlatShard, FlatState};
use chanbook_shard::{Call, ConsensusMessage, Delivery, GroupSettings, LAST_SLOT, Reply, Said, Settings, Shard};
use std::collections::VecDeque;
use std::hint::black_box;
use std::time::Instant;

/// A shard of a group without a slot of whole MHz.
pub fn begun(settings: &Settings) -> Shard {
    Shard::new(&GroupSettings::new(settings.clone(), LAST_SLOT))
}

/// Shards in one state, each of which gets the same call between two readings of the clock, and is then put back.
pub struct Prepared {
    shards: Vec<Shard>,
    flat_shards: Vec<FlatShard>,
    before: FlatState,
    /// Whether calls of this kind write to the table of the reads, which has to be put back then.
    writes_table: bool,
    call: Call,
}

impl Prepared {
    pub fn new(settings: &Settings, before: &[Call], call: &Call, count: usize) -> Prepared {
        let mut shard = begun(settings);
        for call in before {
            assert_eq!(shard.call(*call).outcome, Ok(()));
        }
        let before = shard.flat().state;
        let flat_shards = vec![*shard.flat(); count];
        let mut after = shard.clone();
        after.call(*call);
        let writes_table = after.flat().state.table != before.table;
        Prepared { shards: vec![shard; count], flat_shards, before, writes_table, call: *call }
    }

    /// What one call does: how far the slot goes, how many reads are open after it, whether it sends; and its refusal's number or 0.
    pub fn effect(&mut self) -> ((u64, usize, bool), u64) {
        let mut shard = self.shards[0].clone();
        let slot = shard.slot();
        let reply = shard.call(self.call);
        let number = reply.outcome.map_or_else(|refusal| refusal.number(), |()| 0);
        ((shard.slot() - slot, shard.open_reads().count(), reply.sent().next().is_some()), number)
    }

    /// Nanoseconds of one call on each shard, through the C boundary as a host takes it: in place, in every mode. All calls fill the same reply.
    pub fn round(&mut self) -> u128 {
        let calls: Vec<FlatCall> = vec![self.call.into(); self.flat_shards.len()];
        let mut reply = FlatReply::default();
        let begin = Instant::now();
        for (shard, call) in self.flat_shards.iter_mut().zip(&calls) {
            sys::chanbook_call(shard, call, &mut reply);
            black_box(&reply);
        }
        let time = begin.elapsed().as_nanos();
        for shard in &mut self.flat_shards {
            shard.state.rounds = self.before.rounds;
            if self.writes_table {
                shard.state.table = self.before.table;
            }
        }
        time
    }

    /// The same through the Rust crate.
    pub fn round_in_crate(&mut self) -> u128 {
        let calls: Vec<Call> = vec![self.call; self.shards.len()];
        let begin = Instant::now();
        for (shard, call) in self.shards.iter_mut().zip(&calls) {
            black_box(&shard.call(*call));
        }
        let time = begin.elapsed().as_nanos();
        for shard in &mut self.shards {
            let mut flat = *shard.flat();
            flat.state = self.before;
            *shard = Shard::from_flat(Box::new(flat));
        }
        time
    }
}

/// A group of five, whose member 0 proposes slot after slot; every message is delivered, in the order of sending.
pub struct Cycle {
    settings: Settings,
    queue: VecDeque<(usize, FlatMessage)>,
    queue_in_crate: VecDeque<(usize, ConsensusMessage)>,
}

impl Cycle {
    pub fn new(settings: &Settings) -> Cycle {
        Cycle { settings: settings.clone(), queue: VecDeque::new(), queue_in_crate: VecDeque::new() }
    }

    fn members(&self) -> Vec<Shard> {
        (0..self.settings.process_count).map(|my_pid| begun(&Settings { my_pid, ..self.settings.clone() })).collect()
    }

    fn collect(&mut self, reply: &FlatReply) {
        for sent in [&reply.first, &reply.second, &reply.third] {
            match sent.kind {
                0 => {}
                1 => self.queue.push_back((sent.to as usize, sent.message)),
                _ => {
                    let source = sent.message.src as usize;
                    let others = (0..self.settings.process_count as usize).filter(|to| *to != source);
                    self.queue.extend(others.map(|to| (to, sent.message)));
                }
            }
        }
    }

    /// Nanoseconds of so many slots, and the calls made, through the C boundary as a host takes it.
    pub fn run(&mut self, slots: u64) -> (u128, u64) {
        let mut group: Vec<FlatShard> = self.members().iter().map(|shard| *shard.flat()).collect();
        let mut reply = FlatReply::default();
        let (mut calls, mut commits) = (0, 0);
        let begin = Instant::now();
        for slot in 0..slots {
            let v = 2 * self.settings.process_count * slot;
            sys::chanbook_call(&mut group[0], &FlatCall { v, ..FlatCall::default() }, &mut reply);
            calls += 1;
            self.collect(&reply);
            let requester = FlatOption { given: 1, n: requester(&self.settings, v).unwrap_or(0) };
            while let Some((to, message)) = self.queue.pop_front() {
                let call = FlatCall { kind: 2, message, value_held: 1, requester, held_requester: requester, ..FlatCall::default() };
                sys::chanbook_call(&mut group[to], &call, &mut reply);
                commits += reply.commit.given;
                calls += 1;
                self.collect(&reply);
            }
        }
        let time = begin.elapsed().as_nanos();
        assert_eq!(commits, self.settings.process_count * slots, "every member commits every slot");
        (time, calls)
    }

    fn collect_in_crate(&mut self, reply: &Reply) {
        for sent in reply.sent() {
            let receivers = sent.receivers(self.settings.process_count);
            self.queue_in_crate.extend(receivers.map(|to| (to as usize, sent.message)));
        }
    }

    /// The same through the Rust crate.
    pub fn run_in_crate(&mut self, slots: u64) -> (u128, u64) {
        let mut group = self.members();
        let (mut calls, mut commits) = (0, 0);
        let begin = Instant::now();
        for slot in 0..slots {
            let v = 2 * self.settings.process_count * slot;
            let reply = group[0].propose(v);
            calls += 1;
            self.collect_in_crate(&reply);
            let requester = requester(&self.settings, v);
            let said = Said { value_held: true, requester, fast: false };
            while let Some((to, message)) = self.queue_in_crate.pop_front() {
                let reply = group[to].receive(Delivery { message, said, held_requester: requester });
                commits += u64::from(reply.commit.is_some());
                calls += 1;
                self.collect_in_crate(&reply);
            }
        }
        let time = begin.elapsed().as_nanos();
        assert_eq!(commits, self.settings.process_count * slots, "every member commits every slot");
        (time, calls)
    }
}
