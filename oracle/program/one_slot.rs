//! `oracle slot`: every run of one slot of EPaxos, by the Rust itself, of a small group in which all or some members propose. Messages are lost, repeated
//! and out of order in every way, and every tie goes every way. A Commit takes a member out of the slot, and so does a stop: so none is delivered.
//! Agreement and validity are asked of each commit.
use crate::calls::{Call, Frame, Message, Mode, Outgoing, Promise, Round, Settings, State, Words};
use crate::claim::Claim;
use crate::consensus::paxos_family::inside::Engine;
use crate::proposer_map::{ORDER, Order};
use std::collections::hash_map::DefaultHasher;
use std::collections::{BTreeMap, HashSet};
use std::hash::{Hash, Hasher};

pub const USAGE: &str = "oracle slot --processes N [--replicas N] [--proposers N] [--states N]";

pub struct Options {
    processes: usize,
    /// The replica count; the processes are those that are live.
    replicas: usize,
    /// The last so many propose.
    proposers: usize,
    states: usize,
}

impl Options {
    pub fn read(arguments: &[String]) -> Option<Options> {
        let mut numbers: BTreeMap<&str, usize> = BTreeMap::new();
        for pair in arguments.chunks(2) {
            let [name, value] = pair else { return None };
            let known = ["--processes", "--replicas", "--proposers", "--states"].contains(&name.as_str());
            numbers.insert(name, value.parse().ok().filter(|_| known)?);
        }
        let processes = *numbers.get("--processes")?;
        let number = |name: &str, otherwise: usize| numbers.get(name).copied().unwrap_or(otherwise);
        let replicas = number("--replicas", processes);
        let proposers = number("--proposers", processes);
        let fits = (1..=8).contains(&processes) && (processes..=64).contains(&replicas) && proposers <= processes;
        fits.then(|| Options { processes, replicas, proposers, states: number("--states", usize::MAX) })
    }
}

/// A message under way.
type Sent = (usize, usize, Message);

#[derive(Clone)]
struct Slot {
    /// Those that have committed are out of the slot.
    members: Vec<Option<State>>,
    sent: Vec<Sent>,
    /// The set of those that have proposed.
    proposed: u64,
    committed: Option<usize>,
}

fn round_of(message: &Message) -> Option<Round> {
    match message {
        Message::Prepare { round, .. } | Message::Accept { round, .. } => Some(*round),
        _ => None,
    }
}

impl Slot {
    /// Rounds only grow: a message of an older one does nothing any more.
    fn matters(&self, (_, destination, message): &Sent) -> bool {
        let round = round_of(message);
        self.members[*destination].as_ref().is_some_and(|member| round.is_some() && round >= member.round)
    }

    fn add(&mut self, source: usize, outgoing: &[Outgoing]) {
        for sent in outgoing {
            let all = (0..self.members.len()).filter(|process| *process != source);
            let destinations = all.filter(|process| sent.destination.is_none_or(|only| only == *process));
            self.sent.extend(destinations.map(|destination| (source, destination, sent.message)));
        }
    }

    fn tidy(&mut self) {
        let mut sent = std::mem::take(&mut self.sent);
        sent.retain(|sent| self.matters(sent));
        sent.sort();
        sent.dedup();
        self.sent = sent;
    }

    fn key(&self) -> u128 {
        let members: Vec<Option<State>> =
            self.members.iter().enumerate().map(|(process, member)| member.clone().map(|state| without_tallies(process, state))).collect();
        let half = |salt: u8| {
            let mut hasher = DefaultHasher::new();
            (salt, &members, &self.sent, self.proposed, self.committed).hash(&mut hasher);
            hasher.finish() as u128
        };
        half(1) << 64 | half(2)
    }
}

/// Promises, accepts and answers are counted by the leader of the round alone, and nobody comes back to a round: elsewhere states that differ in them
/// alone go on alike.
fn without_tallies(process: usize, state: State) -> State {
    if state.round.is_none_or(|round| round.leader == process) {
        return state;
    }
    let proposers = vec![];
    State { prepared_set: 0, accepted_set: 0, fast_answer_set: 0, fast_preaccepted: 0, fast_proposers: 0, proposers, ..state }
}

/// What the runs met.
#[derive(Default)]
struct Met {
    calls: u64,
    commits: u64,
    fast_commits: u64,
    ties: u64,
    refusals: BTreeMap<u32, u64>,
}

struct Explorer {
    engines: Vec<Engine>,
    proposers: usize,
    met: Met,
}

/// Each proposes a value of its own.
fn value_of(process: usize) -> usize {
    10 + process
}

fn delivered(source: usize, message: Message) -> Call {
    let words = Words { value_held: true, requester: None, fast: true, held_requester: None };
    Call::Receive(Frame { src: source, last_v: None, message }, words)
}

impl Explorer {
    fn new(options: &Options) -> Explorer {
        let settings = |my_pid| Settings {
            process_count: options.replicas,
            replica_count: options.replicas,
            my_pid,
            alive_replicas: (1 << options.processes) - 1,
            first_leader: 0,
            mode: Mode::EPaxos,
            quorum: None,
            has_committers: false,
            committers: vec![],
            delegates: vec![],
            whole_mhz_from: 0,
            windows: vec![],
        };
        let engines = (0..options.processes).map(|my_pid| Engine::new(&settings(my_pid))).collect();
        Explorer { engines, proposers: options.proposers, met: Met::default() }
    }

    fn first(&self) -> Slot {
        Slot { members: self.engines.iter().map(|engine| Some(engine.state.clone())).collect(), sent: vec![], proposed: 0, committed: None }
    }

    /// The slot after the call with the map walked in that order, if the call is taken, and whether it adopts.
    fn after(&mut self, slot: &Slot, member: usize, call: &Call, order: Order) -> Result<Option<(Slot, bool)>, String> {
        let engine = &mut self.engines[member];
        engine.set_state(slot.members[member].as_ref().expect("who has committed gets no call"));
        ORDER.set(order);
        let outcome = engine.call(call);
        ORDER.set(Order::LowestFirst);
        self.met.calls += 1;
        let done = match outcome {
            Ok(done) => done,
            Err(number) => {
                *self.met.refusals.entry(number).or_default() += 1;
                return Ok(None);
            }
        };
        let mut next = slot.clone();
        let mut state = engine.state.clone();
        state.proposers.truncate(engine.settings.process_count);
        next.members[member] = Some(state);
        next.add(member, &done.sent);
        next.proposed |= (matches!(call, Call::Propose(_)) as u64) << member;
        if let Some(commit) = done.commit {
            self.met.commits += 1;
            self.met.fast_commits += commit.fast as u64;
            next.members[member] = None;
            check(slot, commit.v)?;
            next.committed = Some(commit.v);
        }
        next.tidy();
        let accepts = done.sent.iter().any(|sent| matches!(sent.message, Message::Accept { .. }));
        Ok(Some((next, accepts)))
    }

    /// The slots after each call that may come next.
    fn next(&mut self, slot: &Slot) -> Result<Vec<Slot>, String> {
        let present = |member: &usize| slot.members[*member].is_some();
        let first_proposer = slot.members.len() - self.proposers;
        let proposals = (first_proposer..slot.members.len()).filter(present).map(|member| (member, Call::Propose(value_of(member))));
        let deliveries = slot.sent.iter().map(|(source, destination, message)| (*destination, delivered(*source, *message)));
        let mut all = vec![];
        for (member, call) in proposals.chain(deliveries) {
            let Some((next, accepts)) = self.after(slot, member, &call, Order::LowestFirst)? else { continue };
            if accepts && is_fast_answer(&call) {
                self.other_ways(slot, member, &call, &next, &mut all)?;
            }
            all.push(next);
        }
        Ok(all)
    }

    /// An adoption with the map walked from each other place.
    fn other_ways(&mut self, slot: &Slot, member: usize, call: &Call, lowest: &Slot, all: &mut Vec<Slot>) -> Result<(), String> {
        for places in 1..slot.members.len() {
            if let Some((next, _)) = self.after(slot, member, call, Order::Rotated(places))?
                && next.key() != lowest.key()
            {
                self.met.ties += 1;
                all.push(next);
            }
        }
        Ok(())
    }
}

fn is_fast_answer(call: &Call) -> bool {
    matches!(call, Call::Receive(Frame { message: Message::Prepare { promise: Promise::Fast { .. }, .. }, .. }, _))
}

/// Agreement with what was committed before, and validity.
fn check(slot: &Slot, v: usize) -> Result<(), String> {
    let mut claim = Claim::default();
    let proposed = (0..slot.members.len()).filter(|process| slot.proposed >> process & 1 == 1);
    proposed.for_each(|process| claim.propose(0, value_of(process)));
    slot.committed.iter().for_each(|v| claim.commit(0, *v));
    claim.commit(0, v);
    claim.broken.map_or(Ok(()), Err)
}

/// Whether every run agrees.
pub fn run(options: &Options) -> bool {
    let mut explorer = Explorer::new(options);
    let first = explorer.first();
    let mut seen = HashSet::from([first.key()]);
    let mut left = vec![first];
    while let Some(slot) = left.pop() {
        match explorer.next(&slot) {
            Ok(next) => left.extend(next.into_iter().filter(|next| seen.len() < options.states && seen.insert(next.key()))),
            Err(broken) => {
                println!("{broken}, from {:?} with {:?} under way", slot.members, slot.sent);
                return false;
            }
        }
    }
    let cut = if seen.len() < options.states { "" } else { ", and no more were looked at" };
    let (processes, replicas, proposers) = (options.processes, options.replicas, options.proposers);
    println!("{processes} live of {replicas} replicas, {proposers} propose: {} states{cut}, all agree", seen.len());
    let Met { calls, commits, fast_commits, ties, refusals } = explorer.met;
    println!("calls {calls}, commits {commits}, of them fast {fast_commits}, ties to another {ties}, refusals {refusals:?}");
    true
}
