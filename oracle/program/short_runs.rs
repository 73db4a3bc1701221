//! `oracle short_runs`: document 02, E12, by the Rust itself: every run of at most five events of three offices in Paxos mode, as CSV. It is written
//! from the document alone, and the gate requires these bytes of the program of the same name.
use crate::calls::{Call, Commit, Frame, Mode, Outgoing, Settings, State, Words};
use crate::consensus::paxos_family::inside::Engine;
use std::io::{self, Write};

const MEMBERS: usize = 3;
const MOST_EVENTS: usize = 5;

#[derive(Clone, Copy)]
enum Event {
    Proposal {
        member: usize,
    },
    /// The place is that of the message among all sent.
    Delivery {
        member: usize,
        place: usize,
    },
}

#[derive(Clone)]
struct Run {
    events: Vec<Event>,
    members: Vec<State>,
    proposed: [bool; MEMBERS],
    /// The source and what it sent, in the order of sending.
    sent: Vec<(usize, Outgoing)>,
    commits: Vec<(usize, Commit)>,
}

/// "member 0, 1 or 2 proposes value 10, 11 or 12"
fn value_of(member: usize) -> usize {
    10 + member
}

/// "names the member that proposes a value as its requester"
fn requester(v: Option<usize>) -> Option<usize> {
    (0..MEMBERS).find(|member| v == Some(value_of(*member)))
}

impl Run {
    /// Proposals before deliveries, by member, then by place.
    fn possible_events(&self) -> Vec<Event> {
        let proposals = (0..MEMBERS).filter(|member| !self.proposed[*member]).map(|member| Event::Proposal { member });
        let deliveries = (0..MEMBERS).flat_map(|member| {
            let places = (0..self.sent.len()).filter(move |place| self.was_sent_to(*place, member));
            places.map(move |place| Event::Delivery { member, place })
        });
        proposals.chain(deliveries).collect()
    }

    /// A message without a destination goes to all others.
    fn was_sent_to(&self, place: usize, member: usize) -> bool {
        let (source, sent) = &self.sent[place];
        *source != member && sent.destination.is_none_or(|process| process == member)
    }

    fn delivered(&self, member: usize, place: usize) -> Call {
        let (src, sent) = self.sent[place];
        let held = self.members[member].held.map(|promise| promise.v());
        let words = Words { value_held: true, requester: requester(sent.message.v()), fast: false, held_requester: requester(held) };
        Call::Receive(Frame { src, last_v: sent.last_v, message: sent.message }, words)
    }

    /// The run with one event more; none for a proposal that is refused, while "a refused delivery is an event".
    fn with(&self, engines: &mut [Engine], event: Event) -> Option<Run> {
        let (member, call) = match event {
            Event::Proposal { member } => (member, Call::Propose(value_of(member))),
            Event::Delivery { member, place } => (member, self.delivered(member, place)),
        };
        let engine = &mut engines[member];
        engine.set_state(&self.members[member]);
        let outcome = engine.call(&call);
        let mut next = self.clone();
        next.events.push(event);
        if let Event::Proposal { .. } = event {
            outcome.as_ref().ok()?;
            next.proposed[member] = true;
        }
        if let Ok(done) = outcome {
            next.members[member] = engine.state.clone();
            next.sent.extend(done.sent.into_iter().map(|sent| (member, sent)));
            next.commits.extend(done.commit.map(|commit| (member, commit)));
        }
        Some(next)
    }

    fn line(&self) -> String {
        let event = |event: &Event| match event {
            Event::Proposal { member } => format!("p{member}"),
            Event::Delivery { member, place } => format!("d{member}.{place}"),
        };
        let commit = |(member, commit): &(usize, Commit)| format!("{member}.{}.{}", commit.slot, commit.v);
        let events: Vec<String> = self.events.iter().map(event).collect();
        let commits: Vec<String> = self.commits.iter().map(commit).collect();
        format!("{},{}\r\n", events.join(" "), commits.join(" "))
    }

    /// "Each run is followed at once by those that extend it."
    fn list_extensions(&self, engines: &mut [Engine], events_left: usize, out: &mut impl Write) -> io::Result<()> {
        if events_left == 0 {
            return Ok(());
        }
        for event in self.possible_events() {
            let Some(next) = self.with(engines, event) else { continue };
            out.write_all(next.line().as_bytes())?;
            next.list_extensions(engines, events_left - 1, out)?;
        }
        Ok(())
    }
}

pub fn run() -> io::Result<()> {
    let settings = |my_pid| Settings {
        process_count: MEMBERS,
        replica_count: MEMBERS,
        my_pid,
        alive_replicas: (1 << MEMBERS) - 1,
        first_leader: 0,
        mode: Mode::Paxos,
        quorum: None,
        has_committers: false,
        committers: vec![],
        delegates: vec![],
        whole_mhz_from: 0,
        windows: vec![],
    };
    let mut engines: Vec<Engine> = (0..MEMBERS).map(|my_pid| Engine::new(&settings(my_pid))).collect();
    let members = engines.iter().map(|engine| engine.state.clone()).collect();
    let first = Run { events: vec![], members, proposed: [false; MEMBERS], sent: vec![], commits: vec![] };
    let mut out = io::BufWriter::new(io::stdout().lock());
    out.write_all(b"events,commits\r\n")?;
    first.list_extensions(&mut engines, MOST_EVENTS, &mut out)?;
    out.flush()
}
