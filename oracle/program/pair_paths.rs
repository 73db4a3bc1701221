//! The paths of a call with their causes, in the order of document 01 and, for 8, 9 and 10, of the panics table in docs/DIFFERENCES.md.
//!
//! The 6 of a commit by one that leads the round is no cause of its own: `ready_to_process` has waited for the value before. It is on the paths on which
//! another leader is a cause.
use crate::calls::Mode::{self, *};
use crate::calls::{Call, LARGEST_NUMBER, MODES, Message, OPEN_READ_LIMIT, OpenRead, Promise, Round, Settings, State};
use crate::pair_causes::*;
use crate::pairs::{Besides, Case, Cause, Never, Path};

const CLASSIC: [Mode; 4] = [Paxos, MultiPaxos, MultiPaxos3P, Pando];

fn path(name: &'static str, modes: &'static [Mode], taken: fn(Mode) -> Case, causes: &[&[Cause]], never: Vec<Never>) -> Path {
    Path { name, modes, taken, causes: causes.concat(), never, besides: vec![] }
}

fn never(first: Cause, seconds: &[Cause], why: &'static str) -> Never {
    Never { first: first.name, seconds: seconds.iter().map(|cause| cause.name).collect(), why, second_gives: false }
}

/// Where both changes are made the second gives its number.
fn not_but(first: Cause, seconds: &[Cause], why: &'static str) -> Never {
    Never { second_gives: true, ..never(first, seconds, why) }
}

/// The first cause, brought about with the second.
fn first_with(first: Cause, seconds: &[Cause], bring: fn(&mut Case)) -> Vec<Besides> {
    seconds.iter().map(|second| Besides { first: first.name, second: second.name, of_first: true, bring }).collect()
}

/// What the second causes need besides where the first holds.
fn second_with(first: Cause, seconds: &[Cause], bring: fn(&mut Case)) -> Vec<Besides> {
    first_with(first, seconds, bring).into_iter().map(|besides| Besides { of_first: false, ..besides }).collect()
}

/// What a message with a slot meets before it is handled, but for the value that is awaited.
const ARRIVAL: [Cause; 6] = [UNMADE, SPENT, TOO_LARGE, NO_SUCH_PROCESS, AHEAD, OTHER_LAST];
const OLDER: [Cause; 2] = [OLDER_SLOT, OLDER_ROUND];

const OWN_SLOT: &str = "one is of the own slot and the other of an older one";

/// A message with a slot; `waits` and `handled` are the causes of a message of the own slot, before and after what is ignored.
fn by_slot(
    name: &'static str,
    modes: &'static [Mode],
    taken: fn(Mode) -> Case,
    waits: &[Cause],
    ignored: &[Cause],
    handled: &[Cause],
    nevers: Vec<Never>,
) -> Path {
    let mut path = path(name, modes, taken, &[&ARRIVAL, waits, ignored, handled], nevers);
    path.never.push(never(AHEAD, &[OLDER_SLOT], "a message is of one slot"));
    path.never.push(not_but(OTHER_LAST, &[OLDER_SLOT], OWN_SLOT));
    path.never.push(not_but(WAITS, &[OLDER_SLOT], OWN_SLOT));
    // a message of slot 2^63-1, or ahead of it, is too large besides
    path.besides = first_with(SPENT, &[&[OTHER_LAST], waits, handled].concat(), |case| *case.slot() = LARGEST_NUMBER);
    path.besides.extend(first_with(SPENT, &[AHEAD], |case| *case.slot() = LARGEST_NUMBER + 1));
    path
}

/// A Prepare or an Accept in a mode in which sources are live and replicas alone take part.
fn at_replica(
    name: &'static str,
    modes: &'static [Mode],
    taken: fn(Mode) -> Case,
    waits: &[Cause],
    handled: &[Cause],
    nevers: Vec<Never>,
) -> Path {
    by_slot(name, modes, taken, waits, &[&[NO_REPLICA][..], &OLDER].concat(), &[&[NOT_LIVE], handled].concat(), nevers)
}

/// A Prepare or an Accept in SwiftPaxos, where neither is asked.
fn in_swift(name: &'static str, taken: fn(Mode) -> Case, waits: &[Cause], handled: &[Cause], nevers: Vec<Never>) -> Path {
    by_slot(name, &[SwiftPaxos], taken, waits, &OLDER, handled, nevers)
}

const OWN_ROUND: &str = "one is of a round that oneself leads and the other of another's";
const AWAITED: &str = "who leads waits for the value: the 6 before";

/// The promise completes a majority.
fn classic_prepare() -> Path {
    let taken = |mode| {
        let mut case = prepare(mode, 0, UNACCEPTED);
        (case.state.held, case.state.prepared_set) = (Some(UNACCEPTED), 0b00011);
        case
    };
    let handled = [PROMISE_COUNTED, NOT_FROM_LEADER, ACCEPT_COUNTED, OWN_ACCEPT_UNLIKE];
    at_replica("Prepare", &CLASSIC, taken, &[WAITS], &handled, vec![not_but(WAITS, &[NOT_FROM_LEADER], OWN_ROUND)])
}

/// The delegate of process 1 is the own process, and the other way round.
fn delegate_of_another(case: &mut Case) {
    case.settings.delegates = vec![1, 0, 2, 3, 4];
}

/// The promise completes a majority at the delegate of process 1, which leads.
fn delegate_prepare() -> Path {
    const NOT_DELEGATE: Cause = Cause { bring: |case| case.settings.delegates = (0..5).collect(), ..NOT_FROM_LEADER };
    let taken = |mode| {
        let mut case = prepare(mode, 1, UNACCEPTED);
        (case.state.held, case.state.prepared_set) = (Some(UNACCEPTED), 0b00011);
        delegate_of_another(&mut case);
        case
    };
    let handled = [PROMISE_COUNTED, NOT_DELEGATE, ACCEPT_COUNTED, OWN_ACCEPT_UNLIKE];
    at_replica("Prepare at a delegate that does not lead", &[Pando], taken, &[], &handled, vec![])
}

/// The leader answers its delegate.
fn delegating_prepare() -> Path {
    let taken = |mode| {
        let mut case = prepare(mode, 0, UNACCEPTED);
        case.state.held = Some(UNACCEPTED);
        case.state.prepared_set = 0b00011;
        delegate_of_another(&mut case);
        case
    };
    at_replica("Prepare at a leader that is not the delegate", &[Pando], taken, &[WAITS], &[PROMISE_COUNTED], vec![])
}

/// The answer of process 2 for proposer 1 brings an adoption.
fn epaxos_prepare() -> Path {
    const ACCEPTED_COUNTED: Cause = Cause {
        name: "accepted value, and accept counted",
        bring: |case| {
            let accept_round = Some(Round { group: 1, leader: 0 });
            *promise_of(case) = Promise::Paxos { accept_round, v: promise_of(case).v() };
            case.state.accepted_set = 0b00010;
        },
        ..ACCEPT_COUNTED
    };
    const OWN_MISSING: Cause = Cause {
        name: "own proposal missing",
        number: 8,
        asserts: "self.fast_proposer_to_v.contains_key(&self.my_pid)",
        bring: |case| case.state.fast_proposers = 0b01010,
    };
    const NOT_PREPARED: Cause = Cause {
        name: "adoption without a majority of promises",
        number: 8,
        asserts: "self.round_state.is_prepared()",
        bring: |case| case.state.prepared_set = 0b00001,
    };
    const COMMITS_AWAITED: Cause = Cause {
        name: "fast commit of a value not held, which is awaited",
        number: 6,
        asserts: "",
        bring: |case| {
            case.words().value_held = false;
            *promise_of(case) = Promise::Fast { proposer: 0, v: promise_of(case).v() };
            (case.state.fast_preaccepted, case.state.fast_proposers) = (2, 0b00001);
        },
    };
    let taken = |mode| {
        let mut case = prepare(mode, 0, fast(1));
        (case.state.held, case.state.prepared_set) = (Some(fast(0)), 0b00011);
        (case.state.fast_answer_set, case.state.fast_preaccepted, case.state.fast_proposers) = (0b00011, 1, 0b00011);
        case
    };
    let answers = [SECOND_ANSWER, OWN_MISSING, NOT_PREPARED, ACCEPT_COUNTED];
    let accepted = [ACCEPTED_COUNTED, OWN_ACCEPT_UNLIKE];
    let handled = [&[PROMISE_COUNTED, NOT_FROM_LEADER][..], &accepted, &[NOT_FAST], &answers, &[COMMITS_AWAITED]].concat();
    let no_majority = "the promise completes a majority in one, and in the other there is none with it";
    let mut nevers = vec![
        not_but(WAITS, &[NOT_FROM_LEADER], OWN_ROUND),
        never(ACCEPTED_COUNTED, &[NOT_PREPARED], no_majority),
        never(OWN_ACCEPT_UNLIKE, &[NOT_PREPARED], no_majority),
        never(OWN_ACCEPT_UNLIKE, &[ACCEPT_COUNTED], "one is where a value is accepted and the other where none is"),
    ];
    let later = [NO_REPLICA, OLDER_ROUND, NOT_LIVE, PROMISE_COUNTED, SECOND_ANSWER, NOT_PREPARED, ACCEPT_COUNTED];
    nevers.extend(later.map(|first| not_but(first, &[COMMITS_AWAITED], AWAITED)));
    let not_so = "the promise is a FastV for the own proposal, which is the only one, in one and not in the other";
    nevers.extend([ACCEPTED_COUNTED, OWN_ACCEPT_UNLIKE, NOT_FAST, OWN_MISSING].map(|first| never(first, &[COMMITS_AWAITED], not_so)));
    let mut path = at_replica("Prepare", &[EPaxos], taken, &[WAITS], &handled, nevers);
    // what is accepted is held where the promise is not
    let held_in_round = |case: &mut Case| case.state.held = Some(accepted_in(Round { group: 1, leader: 0 }));
    path.besides.extend(first_with(ACCEPTED_COUNTED, &[NOT_FAST], held_in_round));
    path.besides.extend(first_with(OWN_ACCEPT_UNLIKE, &[NOT_FAST], |case| case.state.held = Some(accepted_in(LATER))));
    path.besides.extend(first_with(ACCEPTED_COUNTED, &[OWN_ACCEPT_UNLIKE], held_in_round));
    // the answers are a majority without this one
    path.besides.extend(second_with(NOT_FAST, &[NOT_PREPARED, ACCEPT_COUNTED], |case| case.state.fast_answer_set = 0b01011));
    path
}

/// Nothing is accepted yet: the leader accepts.
fn swift_prepare_at_leader() -> Path {
    let taken = |mode| {
        let mut case = prepare(mode, 0, fast(1));
        case.state.held = Some(fast(1));
        case
    };
    in_swift("Prepare at the leader", taken, &[WAITS], &[PROMISE_COUNTED, ACCEPT_COUNTED], vec![])
}

/// An answer for the own proposal, of process 2, while that of the leader 1 has come.
fn answer_in_swift(mode: Mode) -> Case {
    let mut case = prepare(mode, 1, fast(0));
    (case.state.held, case.state.prepared_set) = (Some(fast(0)), 0b00001);
    (case.state.fast_answer_set, case.state.fast_preaccepted, case.state.fast_proposers) = (0b01001, 1, 0b00001);
    case.state.swift_leader_answer = Some(7);
    case
}

fn swift_prepare_at_proposer() -> Path {
    let handled = [PROMISE_COUNTED, FROM_LEADER, SECOND_ANSWER, COMMITS_FAST_UNHELD];
    in_swift("Prepare at the proposer, which is the committer", answer_in_swift, &[], &handled, vec![])
}

fn swift_prepare_at_client() -> Path {
    let taken = |mode| {
        let mut case = answer_in_swift(mode);
        case.settings.alive_replicas = 0b11110;
        case.state.held = None;
        case
    };
    let handled = [CLIENT_IGNORES, NOT_FAST, FROM_LEADER, SECOND_ANSWER, COMMITS_FAST_UNHELD];
    in_swift("Prepare at a client, which is the committer", taken, &[], &handled, vec![])
}

/// A client that leads its own round waits for the value, as every leader does.
fn swift_prepare_at_leading_client() -> Path {
    let taken = |mode| {
        let mut case = prepare(mode, 0, fast(1));
        case.settings.alive_replicas = 0b11110;
        case
    };
    let handled = [CLIENT_IGNORES, NOT_FAST, FROM_LEADER, SECOND_ANSWER];
    let mut path = in_swift("Prepare at a client that leads", taken, &[WAITS], &handled, vec![]);
    // the leader, which is oneself, has answered too
    path.besides.extend(second_with(FROM_LEADER, &[SECOND_ANSWER], |case| case.state.fast_answer_set = 0b11111));
    path
}

fn classic_accept() -> Path {
    let taken = |mode| {
        let mut case = accept(mode, 0);
        (case.state.held, case.state.accepted_set) = (Some(accepted_in(Round { group: 1, leader: 0 })), 0b00001);
        case
    };
    const COMMITS_AWAITED: Cause = Cause { name: "commit of a value not held, which is awaited", asserts: "", ..COMMITS_UNHELD };
    let later = |first| not_but(first, &[COMMITS_AWAITED], AWAITED);
    let mut nevers = vec![not_but(WAITS, &[NOT_COMMITTER], OWN_ROUND)];
    nevers.extend([NO_REPLICA, OLDER_ROUND, NOT_LIVE, ACCEPT_UNLIKE].map(later));
    let handled = [ACCEPT_UNLIKE, NOT_COMMITTER, COMMITS_AWAITED];
    at_replica("Accept", &[Paxos, MultiPaxos, MultiPaxos3P, EPaxos, Pando], taken, &[WAITS], &handled, nevers)
}

/// An Accept in Pando at one that does not lead: from the leader, which is not the delegate, it is refused.
fn accept_not_led(name: &'static str, taken: fn(Mode) -> Case) -> Path {
    const NOT_FROM_DELEGATE: Cause =
        Cause { name: "accept of another than the delegate", bring: |case| case.frame().src = case.round().leader, ..NOT_COMMITTER };
    let mut path = at_replica(name, &[Pando], taken, &[], &[ACCEPT_UNLIKE, NOT_FROM_DELEGATE], vec![]);
    // a source that is not live is another than the leader
    path.besides.extend(second_with(NOT_LIVE, &[NOT_FROM_DELEGATE], |case| case.frame().src = 4));
    path
}

/// Process 1 leads, and the own process, its delegate, gets its own Accept.
fn delegate_accept() -> Path {
    let taken = |mode| {
        let mut case = accept(mode, 1);
        case.state.held = Some(accepted_in(Round { group: 1, leader: 1 }));
        case.frame().src = 0;
        delegate_of_another(&mut case);
        case
    };
    accept_not_led("Accept at a delegate that does not lead", taken)
}

/// Process 1 leads, and 2 is its delegate.
fn accept_of_delegate() -> Path {
    let taken = |mode| {
        let mut case = accept(mode, 1);
        case.state.held = Some(accepted_in(Round { group: 1, leader: 1 }));
        case.settings.delegates = vec![0, 2, 1, 3, 4];
        case
    };
    accept_not_led("Accept of a delegate that does not lead", taken)
}

/// The leader counts the accepts, whoever is its delegate.
fn delegating_accept() -> Path {
    let taken = |mode| {
        let mut case = accept(mode, 0);
        (case.state.held, case.state.accepted_set) = (Some(accepted_in(Round { group: 1, leader: 0 })), 0b00001);
        delegate_of_another(&mut case);
        case
    };
    at_replica("Accept at a leader that is not the delegate", &[Pando], taken, &[WAITS], &[ACCEPT_UNLIKE], vec![])
}

/// Of an accept of another than the leader, which the committer counts.
fn committer_accept() -> Path {
    let taken = |mode| {
        let mut case = accept(mode, 1);
        (case.settings.has_committers, case.settings.committers) = (true, vec![0; 5]);
        case.state.held = Some(accepted_in(Round { group: 1, leader: 1 }));
        case
    };
    at_replica("Accept at the committer", &[MultiPaxos3P], taken, &[], &[ACCEPT_UNLIKE, NOT_COMMITTER, COMMITS_UNHELD], vec![])
}

/// The leader's Accept at the committer, with a fixed quorum.
fn leader_accept(mode: Mode) -> Case {
    let mut case = accept(mode, 1);
    case.settings.quorum = Some(0b00111);
    case.frame().src = 1;
    case.state.held = Some(accepted_in(Round { group: 1, leader: 1 }));
    (case.state.fast_answer_set, case.state.fast_proposers) = (0b00001, 0b00001);
    case
}

fn swift_accept_at_replica() -> Path {
    let commits = [COMMITS_UNHELD, COMMITS_FAST_UNHELD];
    let handled = [&[ACCEPT_UNLIKE, SECOND_ANSWER, OUTSIDE_QUORUM, NOT_COMMITTER][..], &commits].concat();
    let not_leader = "one is from the leader, at the committer, and the other is not";
    let nevers = vec![not_but(SECOND_ANSWER, &[NOT_COMMITTER], not_leader), not_but(OUTSIDE_QUORUM, &[NOT_COMMITTER], not_leader)];
    in_swift("Accept at a replica", leader_accept, &[], &handled, nevers)
}

fn swift_accept_at_leader() -> Path {
    let taken = |mode| {
        let mut case = accept(mode, 0);
        case.state.held = Some(accepted_in(Round { group: 1, leader: 0 }));
        case
    };
    in_swift("Accept at the leader", taken, &[WAITS], &[ACCEPT_UNLIKE], vec![])
}

fn swift_accept_at_client() -> Path {
    let taken = |mode| {
        let mut case = leader_accept(mode);
        case.settings.alive_replicas = 0b11110;
        case
    };
    let nevers = vec![not_but(ACCEPT_UNLIKE, &[COMMITS_FAST_UNHELD], "the answer does not commit in one and commits in the other")];
    let handled = [CLIENT_IGNORES, SECOND_ANSWER, OUTSIDE_QUORUM, ACCEPT_UNLIKE, COMMITS_UNHELD, COMMITS_FAST_UNHELD];
    in_swift("Accept at a client, which is the committer", taken, &[], &handled, nevers)
}

/// Its own Accept comes to a client that leads.
fn swift_accept_at_leading_client() -> Path {
    let taken = |mode| {
        let mut case = accept(mode, 0);
        (case.settings.alive_replicas, case.settings.quorum) = (0b11110, Some(0b00111));
        case.frame().src = 0;
        case
    };
    in_swift("Accept at a client that leads", taken, &[WAITS], &[CLIENT_IGNORES, OUTSIDE_QUORUM, ACCEPT_UNLIKE], vec![])
}

fn commit() -> Path {
    let taken = |mode| received(mode, Message::Commit { slot: 4, v: 7 });
    by_slot("Commit", &MODES, taken, &[WAITS], &[], &[], vec![])
}

fn read_response() -> Path {
    let taken = |mode| received(mode, Message::ReadResponse { id: 3, next_readable_slot: 4 });
    // "A ReadResponse's slot field may be 2^63−1": so it may be of the slot that is spent
    by_slot("ReadResponse", &MODES, taken, &[], &[], &[], vec![])
}

fn read_request() -> Path {
    const FROM_ONESELF: Cause =
        Cause { name: "source is oneself", number: 8, asserts: "dest != self.my_pid", bring: |case| case.frame().src = 0 };
    let taken = |mode| received(mode, Message::ReadRequest { id: 3 });
    path("ReadRequest", &MODES, taken, &[&[UNMADE, SPENT, TOO_LARGE, NO_SUCH_PROCESS, FROM_ONESELF]], vec![])
}

fn forward_request() -> Path {
    let taken = |mode| received(mode, Message::ForwardRequest { v: 7 });
    path("ForwardRequest", &MODES, taken, &[&[UNMADE, SPENT, TOO_LARGE, NO_SUCH_PROCESS]], vec![])
}

// ---- proposals and new reads

const fn not_allowed(name: &'static str, asserts: &'static str, bring: fn(&mut Case)) -> Cause {
    Cause { name, number: 11, asserts, bring }
}

const CANNOT_PROPOSE: Cause = not_allowed("not can_propose", "", |case| case.settings.alive_replicas = 0b11110);
const OTHER_ROUND: Cause = not_allowed("round not starting", "assert_eq!(self.round_state.round, self.settings.starting_round)", |case| {
    case.state.round = Some(LATER)
});
const HELD: Cause = not_allowed("promise held already", "self.round_state.get_v().is_none()", |case| case.state.held = Some(UNACCEPTED));
const NOT_LEADER: Cause =
    not_allowed("by another than the leader", "self.is_multi_paxos(), Some(round) == self.settings.starting_round", |case| {
        case.settings.first_leader = 1;
        case.state.round = Some(Round { group: 0, leader: 1 });
    });
const ANSWERED: Cause = not_allowed("an answer", "self.fast_answer_set.is_empty()", |case| case.state.fast_answer_set = 0b00010);
const ANSWER_COUNTED: Cause = not_allowed("an answer counted", "self.fast_preaccepted, 0", |case| case.state.fast_preaccepted = 1);
const PROPOSER_RECORDED: Cause =
    not_allowed("a proposer recorded", "self.fast_proposer_to_v.is_empty()", |case| case.state.fast_proposers = 0b00010);
const EPAXOS_SCORE: Cause =
    not_allowed("own score not 2", "self.epaxos_proposer_scores[self.my_pid], 2", |case| case.state.proposers[0].epaxos_score = 3);
const SWIFT_SCORE: Cause =
    not_allowed("own score not 0", "self._swift_proposer_scores[self.my_pid], 0", |case| case.state.proposers[0].swift_score = 1);
const LEADER_ANSWERED: Cause =
    not_allowed("the leader's answer", "self.swift_leader_answer, None", |case| case.state.swift_leader_answer = Some(7));

fn proposal(modes: &'static [Mode], taken: fn(Mode) -> Case, not_allowed: &[Cause]) -> Path {
    path("proposal", modes, taken, &[&[UNMADE, SPENT, TOO_LARGE], not_allowed], vec![])
}

fn proposals() -> [Path; 4] {
    let taken = |mode| Case { settings: settings(mode), state: state(mode), call: Call::Propose(7) };
    let by_leader = |mode| {
        let round = Some(Round { group: 0, leader: 0 });
        Case { settings: settings(mode), state: State { round, ..state(mode) }, call: Call::Propose(7) }
    };
    let by_another = |mode| {
        let settings = Settings { first_leader: 1, ..settings(mode) };
        Case { settings, state: state(mode), call: Call::Propose(7) }
    };
    let answers = [ANSWERED, ANSWER_COUNTED, PROPOSER_RECORDED];
    let mut multi_paxos = proposal(&[MultiPaxos, MultiPaxos3P], by_leader, &[CANNOT_PROPOSE, OTHER_ROUND, HELD, NOT_LEADER]);
    multi_paxos.besides = first_with(OTHER_ROUND, &[NOT_LEADER], |case| case.state.round = Some(LATER));
    [
        proposal(&[Paxos, Pando], taken, &[CANNOT_PROPOSE, OTHER_ROUND, HELD]),
        multi_paxos,
        proposal(&[EPaxos], taken, &[&[CANNOT_PROPOSE, OTHER_ROUND, HELD], &answers[..], &[EPAXOS_SCORE]].concat()),
        proposal(&[SwiftPaxos], by_another, &[&[OTHER_ROUND, HELD], &answers[..], &[SWIFT_SCORE, LEADER_ANSWERED]].concat()),
    ]
}

fn new_read() -> Path {
    const ARRIVAL_TOO_LARGE: Cause = Cause {
        name: "arrival slot above 2^63-2",
        number: 2,
        asserts: "",
        bring: |case| {
            if let Call::StartRead { arrival_slot, .. } = &mut case.call {
                *arrival_slot = LARGEST_NUMBER;
            }
        },
    };
    const FULL: Cause = Cause {
        name: "128 reads open",
        number: 12,
        asserts: "",
        bring: |case| {
            let read = |id| OpenRead { id, tag: 1, arrival_slot: 0, ready_count: 0, local_ready: false };
            case.state.reads = (0..OPEN_READ_LIMIT).map(read).collect();
        },
    };
    const IDS_SPENT: Cause = Cause { name: "ids spent", number: 12, asserts: "", bring: |case| case.state.next_id = LARGEST_NUMBER + 1 };
    let taken = |mode| {
        let state = State { next_id: OPEN_READ_LIMIT, ..state(mode) };
        Case { settings: settings(mode), state, call: Call::StartRead { tag: 3, arrival_slot: 4 } }
    };
    path("new read", &[Paxos, EPaxos], taken, &[&[UNMADE, SPENT, TOO_LARGE, ARRIVAL_TOO_LARGE, FULL, IDS_SPENT]], vec![])
}

pub fn paths() -> Vec<Path> {
    let mut paths = vec![
        classic_prepare(),
        delegate_prepare(),
        delegating_prepare(),
        epaxos_prepare(),
        swift_prepare_at_leader(),
        swift_prepare_at_proposer(),
        swift_prepare_at_client(),
        swift_prepare_at_leading_client(),
        classic_accept(),
        delegate_accept(),
        accept_of_delegate(),
        delegating_accept(),
        committer_accept(),
        swift_accept_at_replica(),
        swift_accept_at_leader(),
        swift_accept_at_client(),
        swift_accept_at_leading_client(),
        commit(),
        read_response(),
        read_request(),
        forward_request(),
    ];
    paths.extend(proposals());
    paths.push(new_read());
    paths
}
