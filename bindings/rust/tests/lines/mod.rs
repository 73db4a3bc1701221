//! A shard of this crate by its lines (docs/ORACLE.md): what a call line makes of it, and the answer line. The lines are read and written by the oracle's
//! reader and printer, which stand beside this module as `calls`, `reader` and `printer`.
use crate::calls::{self, Done, Frame, Line, Message, Mode, Outcome, PLACES, Promise, Proposer, Round, Served, State, Words};
use crate::printer::{push_outcome, push_shard, push_text};
use crate::reader::read_line;
use chanbook_shard::sys::{FlatCore, FlatHeld, FlatOpenRead, FlatOption, FlatPromise, FlatRound, FlatServedRead, FlatShard};
use chanbook_shard::windows::{Date, Window};
use chanbook_shard::{
    Call, ConsensusMessage, ConsensusMsg, Delivery, Destination, GroupSettings, Outgoing, PFModeSetting, PaxosRound, ReadId, Reply, RoundV,
    Said, ServedRead, Settings, Shard,
};

// ---- from lines

fn table(named: &[usize]) -> [u64; PLACES] {
    std::array::from_fn(|place| named.get(place).map_or(0, |process| *process as u64))
}

fn date(d: &calls::Date) -> Date {
    Date::new(d.year as u64, d.month as u64, d.day as u64, d.hour as u64, d.minute as u64)
}

fn group_settings(s: &calls::Settings) -> GroupSettings {
    let mode = match s.mode {
        Mode::Paxos => PFModeSetting::Paxos,
        Mode::MultiPaxos => PFModeSetting::MultiPaxos,
        Mode::MultiPaxos3P => PFModeSetting::MultiPaxos3P,
        Mode::EPaxos => PFModeSetting::EPaxos,
        Mode::Pando => PFModeSetting::Pando { delegates: table(&s.delegates) },
        Mode::SwiftPaxos => PFModeSetting::SwiftPaxos { quorum: s.quorum },
    };
    let settings = Settings {
        process_count: s.process_count as u64,
        replica_count: s.replica_count as u64,
        my_pid: s.my_pid as u64,
        alive_replicas: s.alive_replicas,
        first_leader: s.first_leader as u64,
        mode,
        committers: s.has_committers.then(|| table(&s.committers)),
    };
    let windows = s.windows.iter().map(|window| Window::new(date(&window.start), date(&window.end)));
    GroupSettings::new(settings, s.whole_mhz_from as u64).with_windows(windows.collect())
}

fn round(r: Round) -> PaxosRound {
    PaxosRound { round_group: r.group as u64, leader: r.leader as u64 }
}

fn promise(p: Promise) -> RoundV {
    match p {
        Promise::Fast { proposer, v } => RoundV::FastV { proposer: proposer as u64, v: v as u64 },
        Promise::Paxos { accept_round, v } => RoundV::PaxosV { accept_round: accept_round.map(round), v: v as u64 },
    }
}

fn number(n: Option<usize>) -> Option<u64> {
    n.map(|n| n as u64)
}

fn delivery(frame: &Frame, words: &Words) -> Delivery {
    let msg = match frame.message {
        Message::Prepare { slot, round: r, promise: p } => ConsensusMsg::Prepare { slot: slot as u64, round: round(r), rv: promise(p) },
        Message::Accept { slot, round: r, v } => ConsensusMsg::Accept { slot: slot as u64, round: round(r), v: v as u64 },
        Message::ForwardRequest { v } => ConsensusMsg::ForwardRequest { v: v as u64 },
        Message::Commit { slot, v } => ConsensusMsg::Commit { slot: slot as u64, v: v as u64 },
        Message::ReadRequest { id } => ConsensusMsg::ReadRequest { id: ReadId(id as u64) },
        Message::ReadResponse { id, next_readable_slot } => {
            ConsensusMsg::ReadResponse { id: ReadId(id as u64), next_readable_slot: next_readable_slot as u64 }
        }
    };
    let message = ConsensusMessage { msg, src: frame.src as u64, last_v: number(frame.last_v) };
    let said = Said { value_held: words.value_held, requester: number(words.requester), fast: words.fast };
    Delivery { message, said, held_requester: number(words.held_requester) }
}

fn call(c: &calls::Call) -> Call {
    match c {
        calls::Call::Propose(v) => Call::Propose(*v as u64),
        calls::Call::StartRead { tag, arrival_slot } => Call::StartRead { tag: *tag as u64, arrival_slot: *arrival_slot as u64 },
        calls::Call::Receive(frame, words) => Call::Receive(delivery(frame, words)),
    }
}

// ---- a state, whose numbers are set

fn flat_option(n: Option<usize>) -> FlatOption {
    FlatOption { given: u64::from(n.is_some()), n: n.unwrap_or(0) as u64 }
}

fn flat_round(r: Option<Round>) -> FlatRound {
    r.map_or(FlatRound::default(), |r| FlatRound { given: 1, round_group: r.group as u64, leader: r.leader as u64 })
}

fn flat_promise(p: Promise) -> FlatPromise {
    match p {
        Promise::Fast { proposer, v } => FlatPromise { fast: 1, proposer: proposer as u64, v: v as u64, ..FlatPromise::default() },
        Promise::Paxos { accept_round, v } => FlatPromise { accept_round: flat_round(accept_round), v: v as u64, ..FlatPromise::default() },
    }
}

fn set_state(flat: &mut FlatShard, s: &State) {
    flat.state.rounds.core = FlatCore {
        slot: s.slot as u64,
        last_v: flat_option(s.last_v),
        slot_left_fast_path: u64::from(s.left_fast_path),
        round: flat_round(s.round),
        max_rv: s.held.map_or(FlatHeld::default(), |held| FlatHeld { given: 1, promise: flat_promise(held) }),
        prepared_set: s.prepared_set,
        accepted_set: s.accepted_set,
        next_id: s.next_id as u64,
        open_count: s.reads.len() as u64,
    };
    let fast = &mut flat.state.rounds.fast;
    fast.fast_answer_set = s.fast_answer_set;
    fast.fast_preaccepted = s.fast_preaccepted as u64;
    fast.fast_proposers = s.fast_proposers;
    fast.swift_leader_answer = flat_option(s.swift_leader_answer);
    (fast.fast_proposer_to_v, fast.epaxos_proposer_scores, fast.swift_proposer_scores) = ([0; PLACES], [0; PLACES], [0; PLACES]);
    for place in &s.proposers {
        fast.fast_proposer_to_v[place.proposer] = place.v as u64;
        fast.epaxos_proposer_scores[place.proposer] = place.epaxos_score as u64;
        fast.swift_proposer_scores[place.proposer] = place.swift_score as u64;
    }
    let table = &mut flat.state.table;
    (table.reads, table.served) = ([FlatOpenRead::default(); 128], [FlatServedRead::default(); 128]);
    for (place, read) in table.reads.iter_mut().zip(&s.reads) {
        *place = FlatOpenRead {
            id: read.id as u64,
            tag: read.tag as u64,
            arrival_slot: read.arrival_slot as u64,
            ready_count: read.ready_count as u64,
            local_ready: u64::from(read.local_ready),
        };
    }
}

// ---- to lines

fn line_round(r: PaxosRound) -> Round {
    Round { group: r.round_group as usize, leader: r.leader as usize }
}

fn line_promise(p: RoundV) -> Promise {
    match p {
        RoundV::FastV { proposer, v } => Promise::Fast { proposer: proposer as usize, v: v as usize },
        RoundV::PaxosV { accept_round, v } => Promise::Paxos { accept_round: accept_round.map(line_round), v: v as usize },
    }
}

fn line_message(m: ConsensusMsg) -> Message {
    match m {
        ConsensusMsg::Prepare { slot, round, rv } => {
            Message::Prepare { slot: slot as usize, round: line_round(round), promise: line_promise(rv) }
        }
        ConsensusMsg::Accept { slot, round, v } => Message::Accept { slot: slot as usize, round: line_round(round), v: v as usize },
        ConsensusMsg::ForwardRequest { v } => Message::ForwardRequest { v: v as usize },
        ConsensusMsg::Commit { slot, v } => Message::Commit { slot: slot as usize, v: v as usize },
        ConsensusMsg::ReadRequest { id } => Message::ReadRequest { id: id.0 as usize },
        ConsensusMsg::ReadResponse { id, next_readable_slot } => {
            Message::ReadResponse { id: id.0 as usize, next_readable_slot: next_readable_slot as usize }
        }
    }
}

fn line_outgoing(sent: &Outgoing) -> calls::Outgoing {
    let (destination, first) = match sent.destination {
        Destination::One(to) => (Some(to as usize), None),
        Destination::All(first) => (None, first.map(|process| process as usize)),
    };
    calls::Outgoing { destination, first, last_v: sent.message.last_v.map(|v| v as usize), message: line_message(sent.message.msg) }
}

fn line_served(read: &ServedRead) -> Served {
    Served { id: read.id.0 as usize, tag: read.tag as usize, waited_for: read.waited_for as usize, fast: read.fast }
}

fn outcome(reply: &Reply) -> Outcome {
    reply.outcome.map_err(|why| why.number() as u32)?;
    let commit = reply.commit.map(|commit| calls::Commit { slot: commit.slot as usize, v: commit.v as usize, fast: commit.fast });
    Ok(Done { sent: reply.sent().map(line_outgoing).collect(), commit, served: reply.served_reads.iter().map(line_served).collect() })
}

fn line_state(shard: &Shard) -> State {
    let core = &shard.flat().state.rounds.core;
    let fast = &shard.flat().state.rounds.fast;
    let place = |proposer: usize| Proposer {
        proposer,
        v: fast.fast_proposer_to_v[proposer] as usize,
        epaxos_score: fast.epaxos_proposer_scores[proposer] as usize,
        swift_score: fast.swift_proposer_scores[proposer] as usize,
    };
    let open = |read: chanbook_shard::OpenRead| calls::OpenRead {
        id: read.id.0 as usize,
        tag: read.tag as usize,
        arrival_slot: read.arrival_slot as usize,
        ready_count: read.ready_count as usize,
        local_ready: read.local_ready,
    };
    let answer = fast.swift_leader_answer;
    State {
        slot: shard.slot() as usize,
        last_v: shard.last_v().map(|v| v as usize),
        left_fast_path: core.slot_left_fast_path != 0,
        round: shard.round().map(line_round),
        held: shard.max_rv().map(line_promise),
        prepared_set: core.prepared_set,
        accepted_set: core.accepted_set,
        fast_answer_set: fast.fast_answer_set,
        fast_preaccepted: fast.fast_preaccepted as usize,
        fast_proposers: fast.fast_proposers,
        swift_leader_answer: (answer.given != 0).then_some(answer.n as usize),
        next_id: core.next_id as usize,
        proposers: (0..PLACES).map(place).collect(),
        reads: shard.open_reads().map(open).collect(),
    }
}

// ---- the shard

/// The one shard that the lines speak of. Before the first settings there is none, and everything is refused with 1.
#[derive(Default)]
pub struct Place {
    shard: Option<Shard>,
}

impl Place {
    fn made(&self) -> Outcome {
        let made = self.shard.as_ref().map_or(Err(1), |shard| shard.made().map_err(|why| why.number() as u32));
        made.map(|()| Done::default())
    }

    fn settings(&mut self, settings: &calls::Settings) -> Outcome {
        self.shard = Some(Shard::new(&group_settings(settings)));
        self.made()
    }

    fn state(&mut self, state: &State) -> Outcome {
        let made = self.made()?;
        if let Some(shard) = &mut self.shard {
            let mut flat = Box::new(*shard.flat());
            set_state(&mut flat, state);
            *shard = Shard::from_flat(flat);
        }
        Ok(made)
    }

    fn call(&mut self, c: &calls::Call) -> Outcome {
        let Some(shard) = &mut self.shard else { return Err(1) };
        let reply = shard.call(call(c));
        assert!(reply.sent().all(|sent| sent.message.src == shard.flat().settings.my_pid), "a message with another's name");
        outcome(&reply)
    }

    fn line(&mut self, line: &Line, out: &mut Vec<u8>) {
        let outcome = match line {
            Line::Settings(settings) => self.settings(settings),
            Line::State(state) => self.state(state),
            Line::Call(call) => self.call(call),
        };
        push_outcome(out, &outcome);
        match &self.shard {
            Some(shard) if shard.made().is_ok() => push_shard(out, &line_state(shard)),
            _ => push_text(out, " | not_made"),
        }
        out.push(b'\n');
    }

    /// The answer to a line without its line feed, if the line is not skipped.
    pub fn text(&mut self, line: &[u8], out: &mut Vec<u8>) {
        if line.is_empty() || line.starts_with(b"#") {
            return;
        }
        match read_line(line) {
            Ok(line) => self.line(&line, out),
            Err(bad) => {
                push_text(out, "bad line: ");
                push_text(out, bad.reason());
                out.push(b'\n');
            }
        }
    }
}
