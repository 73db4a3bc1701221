//! Random runs of a group by the rules of document 01, "Group runs"; besides, hosts forward proposals, by a message that does nothing. A shard depends
//! on its own calls alone, so the recording of a run has the calls of one member after those of another, each in the order of the run.
use crate::any_call;
use crate::calls::{Call, Done, Frame, LARGEST_NUMBER, Line, Message, PLACES, Settings, Words};
use crate::claim::Claim;
use crate::counts::Mark;
use crate::damage;
use crate::proposer_map::{ORDER, Order};
use crate::random::Random;
use crate::recording::{Recorder, Recording};
use std::collections::{HashMap, HashSet};

/// What is usual in a run, in percent.
pub struct Chances {
    pub proposals: usize,
    pub reads: usize,
    pub repeats: usize,
    pub blocked_links: usize,
    /// The host says anything, not what it stored.
    pub odd_words: usize,
    pub damaged: usize,
    pub steps: usize,
    /// The values of the proposals begin behind it.
    pub values_from: usize,
}

impl Chances {
    pub fn any(random: &mut Random, process_count: usize, damaged: bool) -> Chances {
        // in a large group many proposals, reads or blocked links leave no majority for any proposal
        let large = process_count > 16;
        Chances {
            proposals: if large { random.pick(&[0, 1]) } else { random.pick(&[3, 10, 25, 50]) },
            reads: if large { random.pick(&[0, 1]) } else { 3 },
            repeats: random.pick(&[0, 2, 20]),
            blocked_links: if large { random.pick(&[0, 0, 20]) } else { random.pick(&[0, 0, 20, 40, 60]) },
            odd_words: random.pick(&[0, 10, 40]),
            damaged: if damaged { random.pick(&[5, 20, 50]) } else { 0 },
            steps: 20 + random.below((30 * process_count).min(600)),
            values_from: if random.chance(10) { LARGEST_NUMBER - 50 } else { 10 },
        }
    }
}

/// A message that was handed back.
struct Sent {
    destination: Option<usize>,
    frame: Frame,
    /// The call that handed it back had changed numbers.
    after_damage: bool,
}

pub struct Group {
    settings: Settings,
    pub members: Vec<Recorder>,
    /// In the order of sending.
    sent: Vec<Sent>,
    /// Which of them are for all others.
    broadcasts: Vec<usize>,
    known: HashSet<(Option<usize>, Frame)>,
    delivered: HashSet<(usize, usize)>,
    blocked: Vec<u64>,
    requesters: HashMap<usize, usize>,
    proposals: usize,
    /// Of the calls whose numbers are as they were sent.
    pub claim: Claim,
}

impl Group {
    pub fn new(settings: &Settings) -> Group {
        let member = |my_pid| Recorder::new(&Settings { my_pid, ..settings.clone() });
        Group {
            settings: settings.clone(),
            members: (0..settings.process_count).map(member).collect(),
            sent: vec![],
            broadcasts: vec![],
            known: HashSet::new(),
            delivered: HashSet::new(),
            blocked: vec![0; settings.process_count],
            requesters: HashMap::new(),
            proposals: 0,
            claim: Claim::default(),
        }
    }

    fn send(&mut self, destination: Option<usize>, frame: Frame, after_damage: bool) {
        if self.known.insert((destination, frame)) {
            if destination.is_none() {
                self.broadcasts.push(self.sent.len());
            }
            self.sent.push(Sent { destination, frame, after_damage });
        }
    }

    fn send_all(&mut self, member: usize, done: Done, after_damage: bool) {
        for outgoing in done.sent {
            self.send(outgoing.destination, Frame { src: member, last_v: outgoing.last_v, message: outgoing.message }, after_damage);
        }
    }

    /// The number where it is refused.
    pub fn call(&mut self, member: usize, call: &Call) -> Option<u32> {
        let slot = self.members[member].state().map_or(0, |state| state.slot);
        match self.members[member].call(call) {
            Ok(done) => {
                if let Call::Propose(v) = call {
                    self.claim.propose(slot, *v);
                }
                done.commit.iter().for_each(|commit| self.claim.commit(commit.slot, commit.v));
                self.send_all(member, done, false);
                None
            }
            Err(number) => Some(number),
        }
    }

    fn proposal(&mut self, random: &mut Random, chances: &Chances) {
        let usual_leader = self.settings.mode.is_multi_paxos() && random.chance(90);
        let member = if usual_leader { self.settings.first_leader } else { random.below(self.members.len()) };
        let busy = self.members[member].state().is_some_and(|state| state.held.is_some());
        if busy && random.chance(95) {
            return;
        }
        self.proposals += 1;
        let v = if random.chance(chances.odd_words) { random.below(4) } else { chances.values_from + self.proposals };
        self.requesters.insert(v, member);
        if self.call(member, &Call::Propose(v)) == Some(11) && random.chance(10) {
            self.forward(member, v);
        }
    }

    /// What the host may do with a proposal that is not allowed (`propose_start`).
    fn forward(&mut self, member: usize, v: usize) {
        let last_v = self.members[member].state().and_then(|state| state.last_v);
        self.send(None, Frame { src: member, last_v, message: Message::ForwardRequest { v } }, false);
    }

    fn words(&self, random: &mut Random, chances: &Chances, member: usize, frame: &Frame) -> Words {
        if random.chance(chances.odd_words) {
            return any_call::words(random, &Settings { my_pid: member, ..self.settings.clone() });
        }
        let stored = |v: Option<usize>| v.and_then(|v| self.requesters.get(&v).copied());
        let held = self.members[member].state().and_then(|state| state.held);
        Words {
            value_held: true,
            requester: stored(frame.message.v()),
            fast: random.chance(50),
            held_requester: stored(held.map(|promise| promise.v())),
        }
    }

    /// Mostly one of the latest; often one that is for all, since there are few of these and each has many to reach.
    fn any_sent(&self, random: &mut Random) -> usize {
        let count = self.sent.len();
        let latest = count.min(2 * self.members.len());
        match random.below(4) {
            0 if !self.broadcasts.is_empty() => {
                let latest = self.broadcasts.len().min(3);
                self.broadcasts[self.broadcasts.len() - 1 - random.below(latest)]
            }
            0 | 1 => random.below(count),
            _ => count - 1 - random.below(latest),
        }
    }

    /// A message that was sent to a member, by its place; none where the link is blocked, or it came before.
    fn next_delivery(&mut self, random: &mut Random, chances: &Chances) -> Option<(usize, usize)> {
        let place = self.any_sent(random);
        let sent = &self.sent[place];
        let member = sent.destination.unwrap_or_else(|| random.below(self.members.len()));
        let blocked = self.blocked[sent.frame.src] >> member & 1 == 1;
        if member == sent.frame.src || blocked {
            return None;
        }
        let repeated = !self.delivered.insert((place, member));
        (!repeated || random.chance(chances.repeats)).then_some((member, place))
    }

    fn delivery(&mut self, random: &mut Random, chances: &Chances) {
        let Some((member, place)) = (0..8).find_map(|_| self.next_delivery(random, chances)) else { return };
        let Sent { frame, after_damage, .. } = self.sent[place];
        if after_damage {
            self.members[member].mark(Mark::AfterDamage);
        }
        if matches!(frame.message, Message::ForwardRequest { .. }) {
            self.members[member].mark(Mark::Forwarded);
        }
        let call = Call::Receive(frame, self.words(random, chances, member, &frame));
        if random.chance(chances.damaged) {
            let text = damage::numbers(random, &Line::Call(call));
            if let Some(done) = self.members[member].text(&text) {
                self.send_all(member, done, true);
            }
        } else {
            self.call(member, &call);
        }
    }

    fn block_links(&mut self, random: &mut Random, chances: &Chances) {
        let count = self.members.len();
        for links in &mut self.blocked {
            *links = (0..count).filter(|_| random.chance(chances.blocked_links)).fold(0, |links, member| links | 1 << member);
        }
    }

    /// Each tie of EPaxos goes to one of the best that is drawn.
    pub fn run_with_any_tie(&mut self, random: &mut Random, chances: &Chances) {
        self.members.iter_mut().for_each(|member| member.any_tie = true);
        for step in 0..chances.steps {
            ORDER.set(Order::Rotated(random.below(PLACES)));
            self.step(random, chances, step);
        }
        ORDER.set(Order::LowestFirst);
    }

    pub fn run(&mut self, random: &mut Random, chances: &Chances) {
        (0..chances.steps).for_each(|step| self.step(random, chances, step));
    }

    fn step(&mut self, random: &mut Random, chances: &Chances, step: usize) {
        if chances.blocked_links > 0 && step % 12 == 0 {
            self.block_links(random, chances);
        }
        if self.sent.is_empty() || random.chance(chances.proposals) {
            self.proposal(random, chances);
        } else if random.chance(chances.reads) {
            let member = random.below(self.members.len());
            self.call(member, &Call::StartRead { tag: random.below(10), arrival_slot: random.below(3) });
        } else {
            self.delivery(random, chances);
        }
    }

    pub fn into_recording(self) -> Recording {
        let mut recording = Recording::default();
        self.members.into_iter().for_each(|member| recording.append(member.recording));
        recording
    }
}
