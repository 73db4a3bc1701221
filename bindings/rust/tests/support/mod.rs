//! A group of shards whose messages are lost, repeated and reordered, by a seeded row of numbers.
#![allow(dead_code, reason = "each test takes what it needs")]
use chanbook_shard::{Call, ConsensusMessage, Delivery, GroupSettings, LAST_SLOT, PFModeSetting, Refusal, RoundV, Said, Settings, Shard};

/// The row of numbers of splitmix64, which is the same on every machine.
pub struct Random(pub u64);

impl Random {
    pub fn next(&mut self) -> u64 {
        self.0 = self.0.wrapping_add(0x9e37_79b9_7f4a_7c15);
        let mut z = self.0;
        z = (z ^ (z >> 30)).wrapping_mul(0xbf58_476d_1ce4_e5b9);
        z = (z ^ (z >> 27)).wrapping_mul(0x94d0_49bb_1331_11eb);
        z ^ (z >> 31)
    }

    pub fn below(&mut self, bound: usize) -> usize {
        (self.next() % bound as u64) as usize
    }
}

/// A message under way to one member.
#[derive(Clone, Copy)]
struct UnderWay {
    to: usize,
    message: ConsensusMessage,
}

pub struct Group {
    pub shards: Vec<Shard>,
    pub logs: Vec<Vec<u64>>,
    waiting: Vec<UnderWay>,
    lost: Vec<UnderWay>,
    pub random: Random,
}

/// A member's value in a slot. The host tells from it who requested it.
pub fn value_of(slot: u64, member: usize) -> u64 {
    slot * 64 + member as u64
}

pub fn requester_of(v: u64) -> Option<u64> {
    Some(v % 64)
}

/// A shard of a group without a slot of whole MHz.
pub fn begun(settings: &Settings) -> Shard {
    Shard::new(&GroupSettings::new(settings.clone(), LAST_SLOT))
}

impl Group {
    pub fn new(settings: &Settings, seed: u64) -> Group {
        let member = |my_pid| begun(&Settings { my_pid, ..settings.clone() });
        let shards: Vec<Shard> = (0..settings.process_count).map(member).collect();
        Group { logs: vec![vec![]; shards.len()], shards, waiting: vec![], lost: vec![], random: Random(seed) }
    }

    /// The next call: sometimes a proposal, or else the delivery of some message. Lost ones are sent again when no other is left.
    pub fn next_call(&mut self) -> (usize, Call) {
        if self.waiting.is_empty() {
            self.waiting.append(&mut self.lost);
        }
        if self.waiting.is_empty() || self.random.below(8) == 0 {
            let member = self.random.below(self.shards.len());
            let v = value_of(self.shards[member].slot(), member);
            return (member, Call::Propose(v));
        }
        let at = self.random.below(self.waiting.len());
        match self.random.below(10) {
            0..3 => {
                let lost = self.waiting.swap_remove(at);
                self.lost.push(lost);
                self.next_call()
            }
            3..5 => self.delivery(self.waiting[at]),
            _ => {
                let taken = self.waiting.swap_remove(at);
                self.delivery(taken)
            }
        }
    }

    fn delivery(&self, under_way: UnderWay) -> (usize, Call) {
        let value = value_in(&under_way.message);
        let held = self.shards[under_way.to].max_rv().map(value_of_promise);
        let delivery = Delivery {
            said: Said { value_held: true, requester: value.and_then(requester_of), fast: false },
            held_requester: held.and_then(requester_of),
            ..Delivery::of(under_way.message)
        };
        (under_way.to, Call::Receive(delivery))
    }

    /// Makes the call, and keeps what it hands back. A message ahead of its member's slot is sent again later.
    pub fn make(&mut self, member: usize, call: Call) -> Result<(), Refusal> {
        let reply = self.shards[member].call(call);
        if let (Err(Refusal::SlotAhead), Call::Receive(delivery)) = (reply.outcome, call) {
            self.lost.push(UnderWay { to: member, message: delivery.message });
        }
        if let Some(commit) = reply.commit {
            assert_eq!(commit.slot, self.logs[member].len() as u64);
            self.logs[member].push(commit.v);
        }
        let count = self.shards.len() as u64;
        for sent in reply.sent() {
            let message = sent.message;
            let receivers = sent.receivers(count);
            self.waiting.extend(receivers.map(|to| UnderWay { to: to as usize, message }));
        }
        reply.outcome
    }

    pub fn step(&mut self) {
        let (member, call) = self.next_call();
        let _ = self.make(member, call);
    }
}

fn value_of_promise(rv: RoundV) -> u64 {
    match rv {
        RoundV::FastV { v, .. } | RoundV::PaxosV { v, .. } => v,
    }
}

fn value_in(message: &ConsensusMessage) -> Option<u64> {
    use chanbook_shard::ConsensusMsg::{Accept, Commit, ForwardRequest, Prepare, ReadRequest, ReadResponse};
    match message.msg {
        Prepare { rv, .. } => Some(value_of_promise(rv)),
        Accept { v, .. } | ForwardRequest { v } | Commit { v, .. } => Some(v),
        ReadRequest { .. } | ReadResponse { .. } => None,
    }
}

/// Five members. Where a mode has delegates or committers, they are others than the member itself.
pub fn five(mode: PFModeSetting) -> Settings {
    let committers = (mode == PFModeSetting::MultiPaxos3P).then_some(next_of_five(2));
    Settings { first_leader: 1, committers, ..Settings::all_live(5, 0, mode) }
}

fn next_of_five(step: u64) -> [u64; 64] {
    std::array::from_fn(|p| (p as u64 + step) % 5)
}

/// The five modes of which agreement is proved.
pub fn agreeing_modes() -> [PFModeSetting; 5] {
    let delegates = next_of_five(1);
    [
        PFModeSetting::Paxos,
        PFModeSetting::MultiPaxos,
        PFModeSetting::MultiPaxos3P,
        PFModeSetting::EPaxos,
        PFModeSetting::Pando { delegates },
    ]
}

/// All six, SwiftPaxos with and without a fixed quorum.
pub fn all_modes() -> Vec<PFModeSetting> {
    let swift = [PFModeSetting::SwiftPaxos { quorum: None }, PFModeSetting::SwiftPaxos { quorum: Some(0b10111) }];
    agreeing_modes().into_iter().chain(swift).collect()
}
