//! `oracle swift`: a legal run in which the Rust's SwiftPaxos commits two values in one slot (docs/DIFFERENCES.md cites it).
//! `process_answers_at_swift_paxos_client` hands the own number to `swift_answered` as the proposer of the leader's Accept, whatever its value,
//! and `swift_can_commit` does not compare `swift_leader_answer` with the value that is committed.
use crate::calls::{Call, Commit, Frame, Line, Message, Mode, Outgoing, Settings, Words};
use crate::printer::push_line;
use crate::recording::Recorder;

struct Run {
    members: Vec<Recorder>,
    /// What each member has sent.
    sent: Vec<Vec<Outgoing>>,
    commits: Vec<(usize, Commit)>,
}

const PROCESS_COUNT: usize = 3;

/// What the Rust's own `get_requester` answers: 2 for the value 10, and 0 for the value 6.
fn requester(v: Option<usize>) -> Option<usize> {
    v.filter(|v| v % 2 == 0).map(|v| (v >> 1) % PROCESS_COUNT)
}

impl Run {
    fn call(&mut self, member: usize, call: &Call) {
        let mut line = vec![];
        push_line(&mut line, &Line::Call(*call));
        let done = self.members[member].call(call).expect("no call of this run is refused");
        let recording = &self.members[member].recording;
        print!("member {member} < {}", String::from_utf8_lossy(&line));
        print!("member {member} > {}", String::from_utf8_lossy(recording.answer(recording.ends.len() - 1)));
        self.commits.extend(done.commit.map(|commit| (member, commit)));
        self.sent[member].extend(done.sent);
    }

    /// The member gets the first message of that kind that the source has sent to it.
    fn deliver(&mut self, source: usize, member: usize, wanted: fn(&Message) -> bool) {
        let to_member = |sent: &&Outgoing| wanted(&sent.message) && sent.destination.is_none_or(|process| process == member);
        let sent = *self.sent[source].iter().find(to_member).expect("the message was sent to the member");
        let held = self.members[member].state().and_then(|state| state.held);
        let words = Words {
            value_held: true,
            requester: requester(sent.message.v()),
            fast: true,
            held_requester: requester(held.map(|promise| promise.v())),
        };
        self.call(member, &Call::Receive(Frame { src: source, last_v: sent.last_v, message: sent.message }, words));
    }
}

/// Whether both values were committed in slot 0.
pub fn run() -> bool {
    let settings = |my_pid| Settings {
        process_count: PROCESS_COUNT,
        replica_count: 2,
        my_pid,
        alive_replicas: 0b011,
        first_leader: 0,
        mode: Mode::SwiftPaxos,
        quorum: None,
        has_committers: true,
        committers: vec![2; PROCESS_COUNT],
        delegates: vec![],
        whole_mhz_from: 0,
        windows: vec![],
    };
    let members = (0..PROCESS_COUNT).map(|my_pid| Recorder::new(&settings(my_pid))).collect();
    let mut run = Run { members, sent: vec![vec![]; PROCESS_COUNT], commits: vec![] };
    let is_prepare = |message: &Message| matches!(message, Message::Prepare { .. });
    let is_accept = |message: &Message| matches!(message, Message::Accept { .. });
    run.call(2, &Call::Propose(10));
    run.call(0, &Call::Propose(6));
    run.deliver(0, 2, is_accept);
    run.deliver(2, 1, is_prepare);
    run.deliver(1, 2, is_prepare);
    run.deliver(0, 1, is_accept);
    run.deliver(1, 0, is_accept);
    let committed = |member, v| run.commits.iter().any(|(who, commit)| *who == member && commit.slot == 0 && commit.v == v);
    committed(2, 10) && committed(0, 6)
}
