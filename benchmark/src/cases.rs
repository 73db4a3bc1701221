//! The streams: for each kind of call, the calls that bring a shard to its state, and the call that is timed.
use chanbook_shard::{Call, ConsensusMessage, ConsensusMsg, Delivery, PFModeSetting, PaxosRound, ReadId, RoundV, Said, Settings};

pub struct Case {
    pub name: String,
    pub settings: Settings,
    pub before: Vec<Call>,
    pub call: Call,
    /// Whether the original meets a refusal as "not ready": it gives no number, but does nothing too.
    pub refused: bool,
}

/// Upstream reads a value's requester from the value: process p proposes the even values whose half is p, counted round by the processes.
pub fn requester(settings: &Settings, v: u64) -> Option<u64> {
    v.is_multiple_of(2).then(|| (v / 2) % settings.process_count)
}

fn round(round_group: u64, leader: u64) -> PaxosRound {
    PaxosRound { round_group, leader }
}

fn promise(v: u64) -> RoundV {
    RoundV::PaxosV { accept_round: None, v }
}

fn fast(proposer: u64, v: u64) -> RoundV {
    RoundV::FastV { proposer, v }
}

fn prepare(slot: u64, round: PaxosRound, rv: RoundV) -> ConsensusMsg {
    ConsensusMsg::Prepare { slot, round, rv }
}

fn accept(slot: u64, round: PaxosRound, v: u64) -> ConsensusMsg {
    ConsensusMsg::Accept { slot, round, v }
}

fn commit(slot: u64, v: u64) -> ConsensusMsg {
    ConsensusMsg::Commit { slot, v }
}

fn response(id: u64) -> ConsensusMsg {
    ConsensusMsg::ReadResponse { id: ReadId(id), next_readable_slot: 0 }
}

const READ: Call = Call::StartRead { tag: 1, arrival_slot: 0 };

/// A stream under way: its shard's settings, and the calls so far.
struct Stream {
    settings: Settings,
    before: Vec<Call>,
}

fn member(count: u64, my_pid: u64, mode: PFModeSetting) -> Stream {
    Stream { settings: Settings::all_live(count, my_pid, mode), before: vec![] }
}

fn paxos(count: u64, my_pid: u64) -> Stream {
    member(count, my_pid, PFModeSetting::Paxos)
}

fn multi_paxos(count: u64, my_pid: u64) -> Stream {
    member(count, my_pid, PFModeSetting::MultiPaxos)
}

impl Stream {
    /// The message as a call. The requester of the held value counts where a Commit is sent; it is that of the message's value here.
    fn delivery(&self, src: u64, msg: ConsensusMsg) -> Call {
        let v = match msg {
            ConsensusMsg::Prepare { rv: RoundV::FastV { v, .. } | RoundV::PaxosV { v, .. }, .. } => Some(v),
            ConsensusMsg::Accept { v, .. } | ConsensusMsg::Commit { v, .. } | ConsensusMsg::ForwardRequest { v } => Some(v),
            ConsensusMsg::ReadRequest { .. } | ConsensusMsg::ReadResponse { .. } => None,
        };
        let requester = v.and_then(|v| requester(&self.settings, v));
        let said = Said { value_held: true, requester, fast: true };
        let message = ConsensusMessage { msg, src, last_v: None };
        Call::Receive(Delivery { message, said, held_requester: requester })
    }

    fn call(mut self, call: Call) -> Stream {
        self.before.push(call);
        self
    }

    fn hears(self, src: u64, msg: ConsensusMsg) -> Stream {
        let call = self.delivery(src, msg);
        self.call(call)
    }

    /// The same message from each source.
    fn hears_all(self, sources: std::ops::RangeInclusive<u64>, msg: ConsensusMsg) -> Stream {
        sources.fold(self, |stream, src| stream.hears(src, msg))
    }

    fn reads(self, count: u64) -> Stream {
        (0..count).fold(self, |stream, _| stream.call(READ))
    }

    fn times(self, name: impl Into<String>, call: Call) -> Case {
        let count = self.settings.process_count;
        Case { name: format!("{}, n={count}", name.into()), settings: self.settings, before: self.before, call, refused: false }
    }

    fn times_message(self, name: impl Into<String>, src: u64, msg: ConsensusMsg) -> Case {
        let call = self.delivery(src, msg);
        self.times(name, call)
    }
}

fn prepares(n: u64) -> Vec<Case> {
    let (v, majority) = (2 * n, n / 2 + 1);
    let ask = prepare(0, round(0, 0), promise(v));
    let leads = |answers: u64| paxos(n, 0).call(Call::Propose(v)).hears_all(1..=answers, ask);
    vec![
        paxos(n, 1).times_message("Prepare answered", 0, ask),
        paxos(n, 1).hears(0, accept(0, round(0, 0), v)).times_message(
            "Prepare answered, later round over an accepted value",
            2,
            prepare(0, round(0, 2), promise(v + 4)),
        ),
        leads(0).times_message("Prepare answer at the leader, first", 1, ask),
        leads(majority - 2).times_message("Prepare answer at the leader, completing (Accept sent)", majority - 1, ask),
        leads(majority - 1).times_message("Prepare answer at the leader, late", majority, ask),
    ]
}

fn accepts(n: u64) -> Vec<Case> {
    let (v, majority) = (2 * n, n / 2 + 1);
    let ask = accept(0, round(0, 0), v);
    let leads = |answers: u64| multi_paxos(n, 0).call(Call::Propose(v)).hears_all(1..=answers, ask);
    vec![
        multi_paxos(n, 1).times_message("Accept answered", 0, ask),
        leads(0).times_message("Accept answer at the leader, first", 1, ask),
        leads(majority - 2).times_message("Accept answer at the leader, completing (slot committed, Commit sent)", majority - 1, ask),
        leads(majority - 1).times_message("Accept answer at the leader, after the commit (ignored)", majority, ask),
        multi_paxos(n, 1).hears(0, ask).times_message("Commit, accepted before", 0, commit(0, v)),
        paxos(n, 1).times_message("Commit, nothing accepted", 0, commit(0, v)),
    ]
}

fn reads(n: u64) -> Vec<Case> {
    let mut cases = vec![
        paxos(n, 1).times_message("ReadRequest", 0, ConsensusMsg::ReadRequest { id: ReadId(3) }),
        paxos(n, 1).times_message("ReadResponse of no open read", 2, response(7)),
        paxos(n, 1).times("new read, none open", READ),
        paxos(n, 1).reads(100).times("new read, 100 open", READ),
    ];
    for open in [1, 100] {
        let answers = n / 2;
        let id = open / 2;
        let answered = |count: u64| paxos(n, 1).reads(open).hears_all(2..=count + 1, response(id));
        cases.push(answered(0).times_message(format!("ReadResponse, counted, {open} open"), 2, response(id)));
        cases.push(answered(answers - 1).times_message(format!("ReadResponse, completing (read served), {open} open"), 2, response(id)));
    }
    cases
}

fn reads_at_commit() -> Case {
    let opened = paxos(3, 1).hears(0, accept(0, round(0, 0), 6)).reads(100);
    let answered = (0..100).fold(opened, |stream, id| stream.hears(0, response(id)));
    answered.times_message("Commit with 100 reads open", 0, commit(0, 6))
}

fn proposals(n: u64) -> Vec<Case> {
    let v = 2 * n;
    vec![
        paxos(n, 0).times("proposal, Paxos", Call::Propose(v)),
        multi_paxos(n, 0).times("proposal, MultiPaxos", Call::Propose(v)),
        member(n, 0, PFModeSetting::EPaxos).times("proposal, EPaxos", Call::Propose(v)),
        member(n, 1, PFModeSetting::SwiftPaxos { quorum: None })
            .times("proposal, SwiftPaxos, by another than the leader", Call::Propose(v + 2)),
    ]
}

/// A shard at slot 4, by four Commits.
fn at_slot_4(n: u64) -> Stream {
    (0..4).fold(paxos(n, 1), |stream, slot| stream.hears(0, commit(slot, 2 * n * (slot + 1))))
}

fn ignored_and_refused(n: u64) -> Vec<Case> {
    let v = 20 * n;
    let late = paxos(n, 1).hears(2, prepare(0, round(0, 2), promise(v + 4)));
    let ahead = paxos(n, 1).times_message("refused with 5: Prepare of a later slot", 0, prepare(3, round(0, 0), promise(v)));
    vec![
        at_slot_4(n).times_message("ignored: Prepare of an older slot", 0, prepare(3, round(0, 0), promise(v))),
        late.times_message("ignored: Accept of an older round", 0, accept(0, round(0, 0), v)),
        at_slot_4(n).times_message("ignored: Commit of an older slot", 0, commit(3, v)),
        Case { refused: true, ..ahead },
    ]
}

fn epaxos(n: u64) -> Vec<Case> {
    let (v, majority) = (2 * n, n / 2 + 1);
    let quorum = majority.max((3 * n - 1) / 4);
    let answer = prepare(0, round(0, 0), fast(0, v));
    let leads = |answers: u64| member(n, 0, PFModeSetting::EPaxos).call(Call::Propose(v)).hears_all(1..=answers, answer);
    // Every answer names another proposer, and the leader has the highest number.
    let leader = n - 1;
    let other = |p: u64| prepare(0, round(0, leader), fast(p, 2 * p));
    let contended = (0..majority - 2)
        .fold(member(n, leader, PFModeSetting::EPaxos).call(Call::Propose(2 * leader)), |stream, p| stream.hears(p, other(p)));
    vec![
        leads(0).times_message("EPaxos answer at the leader, first", 1, answer),
        leads(quorum - 2).times_message("EPaxos answer at the leader, completing (slot committed, Commit sent)", quorum - 1, answer),
        contended.times_message(
            "EPaxos answer at the leader, all proposers differ (adopted, Accept sent)",
            majority - 2,
            other(majority - 2),
        ),
    ]
}

fn swift_paxos(n: u64) -> Vec<Case> {
    let swift = |me| member(n, me, PFModeSetting::SwiftPaxos { quorum: None });
    let ask = prepare(0, round(0, 0), fast(1, 2 * n + 2));
    vec![
        swift(2).times_message("SwiftPaxos Prepare answered", 1, ask),
        swift(0).times_message("SwiftPaxos Prepare at the leader (Accept sent)", 1, ask),
    ]
}

pub fn all() -> Vec<Case> {
    let kinds = [prepares, accepts, reads, proposals, ignored_and_refused, epaxos, swift_paxos];
    let mut cases: Vec<Case> = kinds.iter().flat_map(|kind| [5, 64].into_iter().flat_map(kind)).collect();
    cases.push(reads_at_commit());
    cases
}

/// The modes of the slot cycle.
pub fn cycles() -> Vec<(&'static str, Settings)> {
    let of = |mode| Settings::all_live(5, 0, mode);
    vec![
        ("slot cycle of five, Paxos", of(PFModeSetting::Paxos)),
        ("slot cycle of five, MultiPaxos", of(PFModeSetting::MultiPaxos)),
        ("slot cycle of five, EPaxos", of(PFModeSetting::EPaxos)),
    ]
}
