//! Every call both ways: by `Shard::call`, with the crate's enums, and by `chanbook_call`, on numbers of which any may stand there.
//! Outcome, sent messages, commit, served reads and the shard afterwards mean the same. The numbers need not be the same: any number but 0 is yes,
//! and what stands under a `given` of 0 does not count. A call that is refused leaves every number of the shard, and of the reply all but those that
//! say that there is nothing in it. What a call should answer is in recorded.rs.
mod numbers;
mod support;

use chanbook_shard::sys::{
    self, FlatCall, FlatCommit, FlatCore, FlatFast, FlatHeld, FlatMessage, FlatOption, FlatOutgoing, FlatPromise, FlatReply, FlatRound,
    FlatServedRead, FlatShard,
};
use chanbook_shard::{
    Call, ConsensusMessage, ConsensusMsg, Delivery, Destination, Outgoing, PFModeSetting, PaxosRound, ReadId, Refusal, Reply, RoundV, Said,
    ServedRead, Settings, Shard,
};
use numbers::any_number;
use std::collections::BTreeSet;
use std::mem::offset_of;
use support::{Group, Random, all_modes, begun, five};

// ---- what numbers mean: 1 for yes, and 0 for what is not given

fn yes(n: u64) -> u64 {
    u64::from(n != 0)
}

fn option(f: FlatOption) -> FlatOption {
    if f.given == 0 { FlatOption::default() } else { FlatOption { given: 1, ..f } }
}

fn round(f: FlatRound) -> FlatRound {
    if f.given == 0 { FlatRound::default() } else { FlatRound { given: 1, ..f } }
}

fn promise(f: FlatPromise) -> FlatPromise {
    match f.fast {
        0 => FlatPromise { proposer: 0, accept_round: round(f.accept_round), ..f },
        _ => FlatPromise { fast: 1, accept_round: FlatRound::default(), ..f },
    }
}

fn held(f: FlatHeld) -> FlatHeld {
    if f.given == 0 { FlatHeld::default() } else { FlatHeld { given: 1, promise: promise(f.promise) } }
}

fn outgoing(f: FlatOutgoing) -> FlatOutgoing {
    if f.kind == 0 {
        return FlatOutgoing::default();
    }
    let message = FlatMessage { rv: promise(f.message.rv), last_v: option(f.message.last_v), ..f.message };
    FlatOutgoing { first: option(f.first), message, ..f }
}

fn commit(f: FlatCommit) -> FlatCommit {
    if f.given == 0 { FlatCommit::default() } else { FlatCommit { given: 1, fast: yes(f.fast), ..f } }
}

fn reply(f: &FlatReply) -> FlatReply {
    FlatReply { first: outgoing(f.first), second: outgoing(f.second), third: outgoing(f.third), commit: commit(f.commit), ..*f }
}

/// Every place of the tables counts, those past the open and the served reads too. In a mode that there is not every mark is 1.
fn shard(f: &FlatShard) -> FlatShard {
    let mut f = *f;
    f.made = match f.made {
        0 if f.settings.mode <= 5 => 0,
        17 if f.settings.mode <= 5 => 17,
        _ => 1,
    };
    f.settings.quorum = option(f.settings.quorum);
    f.settings.has_committers = yes(f.settings.has_committers);
    let core = &mut f.state.rounds.core;
    core.last_v = option(core.last_v);
    core.slot_left_fast_path = yes(core.slot_left_fast_path);
    core.round = round(core.round);
    core.max_rv = held(core.max_rv);
    let fast = &mut f.state.rounds.fast;
    fast.swift_leader_answer = option(fast.swift_leader_answer);
    f.state.table.reads.iter_mut().for_each(|read| read.local_ready = yes(read.local_ready));
    f.state.table.served.iter_mut().for_each(|read| read.fast = yes(read.fast));
    f
}

/// The places at which two shards do not mean the same, with both numbers.
fn differences(one: &FlatShard, other: &FlatShard) -> Vec<(usize, u64, u64)> {
    let (one, other) = (shard(one).numbers(), shard(other).numbers());
    if one == other {
        return vec![];
    }
    (0..FlatShard::NUMBERS).filter(|at| one[*at] != other[*at]).map(|at| (at, one[at], other[at])).collect()
}

// ---- from the crate's types to numbers, and back

fn flat_outgoing(sent: &Outgoing) -> FlatOutgoing {
    let message = sent.message.into();
    match sent.destination {
        Destination::One(to) => FlatOutgoing { kind: 1, to, message, ..FlatOutgoing::default() },
        Destination::All(first) => {
            let first = FlatOption { given: u64::from(first.is_some()), n: first.unwrap_or(0) };
            FlatOutgoing { kind: 2, first, message, ..FlatOutgoing::default() }
        }
    }
}

fn flat_reply(reply: &Reply) -> FlatReply {
    let [first, second, third] = reply.messages.map(|sent| sent.as_ref().map(flat_outgoing).unwrap_or_default());
    let commit = reply.commit.map(|commit| FlatCommit { given: 1, slot: commit.slot, v: commit.v, fast: u64::from(commit.fast) });
    FlatReply {
        outcome: reply.outcome.map_or_else(Refusal::number, |()| 0),
        first,
        second,
        third,
        commit: commit.unwrap_or_default(),
        served_count: reply.served_reads.len() as u64,
    }
}

fn served_read(f: &FlatServedRead) -> ServedRead {
    ServedRead { id: ReadId(f.id), tag: f.tag, waited_for: f.waited_for, fast: f.fast != 0 }
}

fn given(f: FlatOption) -> Option<u64> {
    (f.given != 0).then_some(f.n)
}

fn promise_in(f: &FlatPromise) -> RoundV {
    let FlatRound { given, round_group, leader } = f.accept_round;
    match f.fast {
        0 => RoundV::PaxosV { accept_round: (given != 0).then_some(PaxosRound { round_group, leader }), v: f.v },
        _ => RoundV::FastV { proposer: f.proposer, v: f.v },
    }
}

/// The call of these numbers, unless it has a message of a kind that there is not.
fn call_in(f: &FlatCall) -> Option<Call> {
    let m = &f.message;
    let round = PaxosRound { round_group: m.round_group, leader: m.leader };
    match f.kind {
        0 => return Some(Call::Propose(f.v)),
        1 => return Some(Call::StartRead { tag: f.v, arrival_slot: f.arrival_slot }),
        _ => {}
    }
    let msg = match m.kind {
        1 => ConsensusMsg::Prepare { slot: m.slot, round, rv: promise_in(&m.rv) },
        2 => ConsensusMsg::Accept { slot: m.slot, round, v: m.v },
        3 => ConsensusMsg::ForwardRequest { v: m.v },
        4 => ConsensusMsg::Commit { slot: m.slot, v: m.v },
        5 => ConsensusMsg::ReadRequest { id: ReadId(m.id) },
        6 => ConsensusMsg::ReadResponse { id: ReadId(m.id), next_readable_slot: m.next_readable_slot },
        _ => return None,
    };
    let said = Said { value_held: f.value_held != 0, requester: given(f.requester), fast: f.fast != 0 };
    let message = ConsensusMessage { msg, src: m.src, last_v: given(m.last_v) };
    Some(Call::Receive(Delivery { message, said, held_requester: given(f.held_requester) }))
}

// ---- both ways

/// A shard that gets its calls by `Shard::call`, and by `chanbook_call` with one reply for all of them.
#[derive(Clone)]
struct BothWays {
    in_crate: Shard,
    lent: FlatShard,
    reply: FlatReply,
}

/// What was met: outcomes, and how many commits, served reads, changes of the fast half and commits on the fast path.
#[derive(Default)]
struct Met {
    outcomes: BTreeSet<u64>,
    commits: u64,
    served: u64,
    fast_changes: u64,
    fast_commits: u64,
}

impl BothWays {
    /// In the crate the shard has 1 for yes and 0 for what is not given. The reply is as if an earlier call had sent, committed and served.
    fn new(flat: FlatShard) -> BothWays {
        let sent = FlatOutgoing { kind: 1, to: 7, ..FlatOutgoing::default() };
        let commit = FlatCommit { given: 1, slot: 7, v: 7, fast: 1 };
        let reply = FlatReply { outcome: 7, first: sent, second: sent, third: sent, commit, served_count: 7 };
        BothWays { in_crate: Shard::from_flat(Box::new(shard(&flat))), lent: flat, reply }
    }

    fn call(&mut self, call: FlatCall, met: &mut Met) {
        let (before, reply_before) = (self.lent, self.reply);
        sys::chanbook_call(&mut self.lent, &call, &mut self.reply);
        if self.reply.outcome != 0 {
            assert!(self.lent.numbers() == before.numbers(), "refused, and yet written: {call:?}");
            assert_eq!(self.reply, emptied(&reply_before, self.reply.outcome), "refused, and yet written: {call:?}");
        }
        let means = reply(&self.reply);
        match call_in(&call) {
            Some(call) => self.call_in_crate(call, &means),
            None => assert_ne!(means.outcome, 0, "{call:?}"),
        }
        met.outcomes.insert(means.outcome);
        met.commits += means.commit.given;
        met.served += means.served_count;
        met.fast_changes += u64::from(self.lent.state.rounds.fast != before.state.rounds.fast);
        met.fast_commits += means.commit.fast;
    }

    fn call_in_crate(&mut self, call: Call, means: &FlatReply) {
        let reply = self.in_crate.call(call);
        assert_eq!(flat_reply(&reply), *means, "{call:?}");
        let served = &self.lent.state.table.served[..means.served_count as usize];
        assert!(served.iter().map(served_read).eq(reply.served_reads), "{call:?}");
        assert_eq!(differences(&self.lent, self.in_crate.flat()), [], "{call:?}");
    }
}

/// The reply after a refusal: nothing is sent, committed or served, and all other numbers stay.
fn emptied(before: &FlatReply, outcome: u64) -> FlatReply {
    let nothing = |sent: FlatOutgoing| FlatOutgoing { kind: 0, ..sent };
    let (first, second, third) = (nothing(before.first), nothing(before.second), nothing(before.third));
    FlatReply { outcome, first, second, third, commit: FlatCommit { given: 0, ..before.commit }, served_count: 0 }
}

/// Up to three numbers are others.
fn damaged_call(call: FlatCall, random: &mut Random) -> FlatCall {
    let mut numbers = call.numbers();
    for _ in 0..=random.below(3) {
        numbers[random.below(FlatCall::NUMBERS)] = any_number(random);
    }
    FlatCall::from_numbers(numbers)
}

fn place(offset: usize) -> usize {
    offset / size_of::<u64>()
}

/// A place in the fast half: before its tables, or that of one of the first processes in a table.
fn place_in_fast(random: &mut Random) -> usize {
    let values = offset_of!(FlatFast, fast_proposer_to_v);
    let tables = [values, offset_of!(FlatFast, epaxos_proposer_scores), offset_of!(FlatFast, swift_proposer_scores)];
    place(offset_of!(FlatShard, state.rounds.fast))
        + match random.below(2) {
            0 => random.below(place(values)),
            _ => place(tables[random.below(3)]) + random.below(8),
        }
}

/// A few numbers are others: of the setup, the core and the fast half, which decide most, or anywhere.
fn damaged_shard(flat: &FlatShard, random: &mut Random) -> FlatShard {
    let core = place(offset_of!(FlatShard, state.rounds.core));
    let mut numbers = flat.numbers();
    for _ in 0..=random.below(4) {
        let at = match random.below(6) {
            0 => random.below(place(offset_of!(FlatShard, settings.committers))),
            1 => random.below(FlatShard::NUMBERS),
            2 | 3 => place_in_fast(random),
            _ => core + random.below(place(size_of::<FlatCore>())),
        };
        numbers[at] = any_number(random);
    }
    FlatShard::from_numbers(numbers)
}

/// Sizes of groups.
const SIZES: [u64; 8] = [1, 2, 3, 4, 5, 7, 33, 64];

/// Settings within the limits, of groups of all sizes, in which not all are replicas and not all of these live.
fn any_settings(mode: PFModeSetting, random: &mut Random) -> Settings {
    let count = SIZES[random.below(SIZES.len())];
    let process = |random: &mut Random| random.next() % count;
    let replica_count = 1 + process(random);
    let replicas = (0..count).filter(|_| random.below(5) != 0).take(replica_count as usize);
    let alive_replicas = replicas.fold(0, |set, p| set | 1 << p);
    let mode = match mode {
        PFModeSetting::Pando { .. } => PFModeSetting::Pando { delegates: std::array::from_fn(|_| process(random)) },
        PFModeSetting::SwiftPaxos { quorum: Some(_) } => PFModeSetting::SwiftPaxos { quorum: Some(alive_replicas) },
        other => other,
    };
    let committers = (random.below(2) == 0).then(|| std::array::from_fn(|_| process(random)));
    let (my_pid, first_leader) = (process(random), process(random));
    Settings { process_count: count, replica_count, my_pid, alive_replicas, first_leader, mode, committers }
}

/// A call that a member of such a group may get: its slot, rounds and processes are near the shard's own.
fn likely_call(flat: &FlatShard, random: &mut Random) -> FlatCall {
    let core = &flat.state.rounds.core;
    let process = |random: &mut Random| random.next() % flat.settings.process_count;
    let near = |n: u64, random: &mut Random| if random.below(6) == 0 { n.wrapping_add(random.next() % 3).wrapping_sub(1) } else { n };
    let slot = near(core.slot, random);
    let v = random.next() % 4;
    let round = match random.below(4) {
        0 => PaxosRound { round_group: random.next() % 3, leader: process(random) },
        1 => PaxosRound { round_group: random.next() % 3, leader: flat.settings.my_pid },
        _ => PaxosRound { round_group: core.round.round_group, leader: core.round.leader },
    };
    let accept_round = (random.below(2) == 0).then_some(PaxosRound { round_group: 0, leader: process(random) });
    let rv = match random.below(2) {
        0 => RoundV::FastV { proposer: process(random), v },
        _ => RoundV::PaxosV { accept_round, v },
    };
    let id = ReadId(near(core.next_id.wrapping_sub(1 + random.next() % 8), random));
    let msg = match random.below(16) {
        0 => return Call::Propose(v).into(),
        1 | 2 => return Call::StartRead { tag: random.next() >> 1, arrival_slot: near(core.slot, random) }.into(),
        3..6 => ConsensusMsg::Prepare { slot, round, rv },
        6..10 => ConsensusMsg::Accept { slot, round, v },
        10 => ConsensusMsg::ForwardRequest { v },
        11 => ConsensusMsg::Commit { slot, v },
        12 => ConsensusMsg::ReadRequest { id },
        _ => ConsensusMsg::ReadResponse { id, next_readable_slot: slot },
    };
    let last_v = given(core.last_v).filter(|_| random.below(2) == 0).map(|v| near(v, random));
    let src = process(random);
    let message = ConsensusMessage { msg, src: near(src, random), last_v };
    let mut requester = || (random.below(3) != 0).then(|| process(random));
    let (requester, held_requester) = (requester(), requester());
    let said = Said { value_held: random.below(10) != 0, requester, fast: random.below(2) == 0 };
    Call::Receive(Delivery { message, said, held_requester }).into()
}

fn heard(src: u64, msg: ConsensusMsg, requester: u64) -> FlatCall {
    let message = ConsensusMessage { msg, src, last_v: None };
    let said = Said { value_held: true, requester: Some(requester), fast: false };
    Call::Receive(Delivery { message, said, held_requester: Some(requester) }).into()
}

/// A slot on the fast path: the member proposes, and hears an answer of every process to the value of one of so many proposers, and then an Accept of
/// every process for what it holds. Gives whether that has brought a commit.
fn fast_slot(member: &mut BothWays, proposers: u64, random: &mut Random, met: &mut Met) -> bool {
    let settings = member.lent.settings;
    let slot = member.lent.state.rounds.core.slot;
    let value = |proposer: u64| 64 * slot + proposer;
    member.call(Call::Propose(value(settings.my_pid)).into(), met);
    for at in 0..2 * settings.process_count {
        let src = (settings.my_pid + 1 + at) % settings.process_count;
        let core = member.lent.state.rounds.core;
        let round = PaxosRound { round_group: core.round.round_group, leader: core.round.leader };
        let proposer = (settings.my_pid + random.next() % proposers) % settings.process_count;
        let leader_answers = settings.mode == 5 && src == settings.first_leader;
        let msg = match at / settings.process_count {
            0 if !leader_answers => ConsensusMsg::Prepare { slot, round, rv: RoundV::FastV { proposer, v: value(proposer) } },
            0 => ConsensusMsg::Accept { slot, round, v: value(proposer) },
            _ => ConsensusMsg::Accept { slot, round, v: core.max_rv.promise.v },
        };
        let call = heard(src, msg, proposer);
        member.clone().call(damaged_call(call, random), met);
        member.call(call, met);
    }
    let committed = member.lent.state.rounds.core.slot > slot;
    member.call(heard(settings.first_leader, ConsensusMsg::Commit { slot, v: value(0) }, 0), met);
    committed
}

/// The modes with a fast path, SwiftPaxos also with a majority as its fixed quorum.
fn fast_modes(count: u64) -> [PFModeSetting; 3] {
    let quorum = (0..=count / 2).fold(0, |set, p| set | 1 << p);
    [PFModeSetting::EPaxos, PFModeSetting::SwiftPaxos { quorum: None }, PFModeSetting::SwiftPaxos { quorum: Some(quorum) }]
}

#[test]
fn fast_paths_in_groups_of_all_sizes() {
    let mut random = Random(26);
    for (mode, proposers) in (0..3).flat_map(|mode| [1, 2, 64].map(|proposers| (mode, proposers))) {
        let (mut met, mut committed) = (Met::default(), 0);
        for (count, my_pid) in SIZES.into_iter().flat_map(|count| [0, count / 2, count - 1].map(|my_pid| (count, my_pid))) {
            let settings = Settings::all_live(count, my_pid, fast_modes(count)[mode].clone());
            let mut member = BothWays::new(*begun(&settings).flat());
            committed += (0..6).filter(|_| fast_slot(&mut member, proposers, &mut random, &mut met)).count();
        }
        let figures = (committed, met.fast_commits, met.fast_changes);
        assert!(committed > 80 && met.fast_commits > 50 && met.fast_changes > 250, "mode {mode}, {proposers} proposers: {figures:?}");
    }
}

#[test]
fn calls_of_a_group_and_damaged_ones_beside_them() {
    let mut outcomes = BTreeSet::new();
    for mode in all_modes() {
        let mut met = Met::default();
        let mut group = Group::new(&five(mode.clone()), 21);
        let mut members: Vec<BothWays> = group.shards.iter().map(|shard| BothWays::new(*shard.flat())).collect();
        let mut random = Random(22);
        for _ in 0..4000 {
            let (member, call) = group.next_call();
            let read = Call::StartRead { tag: random.next() >> 1, arrival_slot: random.next() % 4 };
            for call in [call, read].into_iter().take(if random.below(60) == 0 { 2 } else { 1 }) {
                let numbers = FlatCall::from(call);
                let mut beside = members[member].clone();
                (0..3).for_each(|_| beside.call(damaged_call(numbers, &mut random), &mut met));
                let mut beside = BothWays::new(damaged_shard(&members[member].lent, &mut random));
                beside.call(numbers, &mut met);
                beside.call(damaged_call(numbers, &mut random), &mut met);
                members[member].call(numbers, &mut met);
                let _ = group.make(member, call);
                assert_eq!(group.shards[member], members[member].in_crate);
            }
        }
        assert!(met.commits > 100 && met.served > 100, "{mode:?}: {} commits, {} reads served", met.commits, met.served);
        let has_fast_path = matches!(mode, PFModeSetting::EPaxos | PFModeSetting::SwiftPaxos { .. });
        assert!(!has_fast_path || (met.fast_changes > 300 && met.fast_commits > 100), "{mode:?}: the fast half had little to do");
        outcomes.append(&mut met.outcomes);
    }
    assert!(outcomes.into_iter().eq(0..=12), "every refusal was met");
}

#[test]
fn likely_calls_in_groups_of_all_sizes() {
    let mut met = Met::default();
    let mut random = Random(23);
    for mode in all_modes().into_iter().cycle().take(140) {
        let settings = any_settings(mode, &mut random);
        let shard = begun(&settings);
        assert_eq!(shard.made(), Ok(()), "{settings:?}");
        let mut member = BothWays::new(*shard.flat());
        for _ in 0..300 {
            let call = likely_call(&member.lent, &mut random);
            member.call(call, &mut met);
        }
    }
    assert!(met.commits > 1000 && met.served > 1000, "{} commits, {} reads served", met.commits, met.served);
}

#[test]
fn full_tables_of_reads() {
    for mode in all_modes() {
        let mut met = Met::default();
        let mut random = Random(24);
        let mut member = BothWays::new(*begun(&five(mode)).flat());
        for step in 0..1500 {
            let core = member.lent.state.rounds.core;
            let oldest = member.lent.state.table.reads[0].id;
            let hears = |msg| Call::Receive(Delivery::of(ConsensusMessage { msg, src: 1, last_v: None })).into();
            // Reads are opened until there is no room, and then answered faster than new ones come.
            let new_reads = if step % 500 < 250 { 9 } else { 2 };
            let call = match random.below(10) {
                n if n < new_reads => Call::StartRead { tag: step, arrival_slot: core.slot / 2 }.into(),
                _ if random.below(20) == 0 => hears(ConsensusMsg::Commit { slot: core.slot, v: step }),
                _ => {
                    let id = ReadId(oldest + random.next() % 128);
                    hears(ConsensusMsg::ReadResponse { id, next_readable_slot: core.slot })
                }
            };
            member.call(call, &mut met);
        }
        assert!(met.outcomes.contains(&12) && met.served > 100, "{:?}, {} reads served", met.outcomes, met.served);
    }
}

#[test]
fn any_numbers() {
    let mut met = Met::default();
    let mut random = Random(25);
    for mode in all_modes() {
        let made = *begun(&five(mode)).flat();
        for _ in 0..1000 {
            let mut flat = FlatShard::from_numbers(std::array::from_fn(|_| any_number(&mut random)));
            let any = FlatCall::from_numbers(std::array::from_fn(|_| any_number(&mut random)));
            BothWays::new(flat).call(any, &mut met);
            (flat.made, flat.settings) = (made.made, made.settings);
            let likely = likely_call(&flat, &mut random);
            for call in [any, likely, damaged_call(likely, &mut random)] {
                BothWays::new(flat).call(call, &mut met);
            }
        }
    }
    assert!(met.outcomes.contains(&0) && met.outcomes.contains(&1), "{:?}", met.outcomes);
}
