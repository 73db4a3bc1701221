//! The instances of document 01 that an entry point shows, and its refusals. The other instances, about parts of the state, are proved in
//! crates/instances alone.
use chanbook_shard::{
    Call, ConsensusMessage, ConsensusMsg, Delivery, Destination, GroupSettings, LAST_SLOT, PFModeSetting, PaxosRound, ReadId, Refusal,
    Reply, RoundV, Said, Settings, Shard,
    windows::{Date, Window},
};

fn round(round_group: u64, leader: u64) -> PaxosRound {
    PaxosRound { round_group, leader }
}

fn begun(settings: &Settings) -> Shard {
    Shard::new(&GroupSettings::new(settings.clone(), LAST_SLOT))
}

fn member(count: u64, my_pid: u64, mode: PFModeSetting) -> Shard {
    begun(&Settings::all_live(count, my_pid, mode))
}

fn hears(shard: &mut Shard, src: u64, msg: ConsensusMsg) -> Reply {
    shard.receive(Delivery::of(ConsensusMessage { msg, src, last_v: None }))
}

fn not_accepted(v: u64) -> RoundV {
    RoundV::PaxosV { accept_round: None, v }
}

fn prepare(slot: u64, round: PaxosRound, rv: RoundV) -> ConsensusMsg {
    ConsensusMsg::Prepare { slot, round, rv }
}

fn accept(slot: u64, round: PaxosRound, v: u64) -> ConsensusMsg {
    ConsensusMsg::Accept { slot, round, v }
}

/// The answers, in order, until one commits: how many it took.
fn answers_to_commit(shard: &mut Shard, answers: &[(u64, ConsensusMsg)]) -> usize {
    let committing = answers.iter().position(|(src, msg)| hears(shard, *src, *msg).commit.is_some());
    committing.expect("a commit") + 1
}

#[test]
fn of_five_replicas_three_commit_in_multi_paxos_and_in_epaxos() {
    // The proposer counts itself.
    let mut leader = member(5, 0, PFModeSetting::MultiPaxos);
    leader.propose(10);
    let accepts: Vec<_> = (1..5).map(|p| (p, accept(0, round(0, 0), 10))).collect();
    assert_eq!(answers_to_commit(&mut leader, &accepts) + 1, 3);

    let mut proposer = member(5, 0, PFModeSetting::EPaxos);
    proposer.propose(10);
    let fast = RoundV::FastV { proposer: 0, v: 10 };
    let answers: Vec<_> = (1..5).map(|p| (p, prepare(0, round(0, 0), fast))).collect();
    assert_eq!(answers_to_commit(&mut proposer, &answers) + 1, 3);
}

#[test]
fn of_five_replicas_four_commit_fast_in_swift_paxos() {
    // In SwiftPaxos the leader answers with an Accept and the others with a Prepare. The host names the proposer as requester.
    let mut proposer = member(5, 1, PFModeSetting::SwiftPaxos { quorum: None });
    proposer.propose(12);
    let fast = RoundV::FastV { proposer: 1, v: 12 };
    let mut answer = |src, msg| {
        let delivery = Delivery::of(ConsensusMessage { msg, src, last_v: None });
        let said = Said { requester: Some(1), ..delivery.said };
        let held_requester = Some(1);
        proposer.receive(Delivery { said, held_requester, ..delivery })
    };
    assert_eq!(answer(2, prepare(0, round(0, 0), fast)).commit, None);
    assert_eq!(answer(3, prepare(0, round(0, 0), fast)).commit, None);
    let commit = answer(0, accept(0, round(0, 0), 12)).commit.expect("a commit");
    assert!(commit.fast, "the fourth answer, the own one included");
}

#[test]
fn none_comes_before_0_4_and_that_before_1_0() {
    let mut shard = member(5, 1, PFModeSetting::Paxos);
    assert_eq!(shard.round(), None);
    hears(&mut shard, 4, prepare(0, round(0, 4), not_accepted(7)));
    assert_eq!(shard.round(), Some(round(0, 4)));
    hears(&mut shard, 0, prepare(0, round(1, 0), not_accepted(8)));
    assert_eq!(shard.round(), Some(round(1, 0)));
    let before = shard.clone();
    let reply = hears(&mut shard, 4, prepare(0, round(0, 4), not_accepted(7)));
    assert_eq!(reply.outcome, Ok(()));
    assert_eq!(shard, before, "an older round changes nothing");
}

#[test]
fn the_promise_with_the_latest_accept_round_is_held() {
    // Of seven, four are a majority: the third answer brings the Accept, with the value that is held.
    let mut leader = member(7, 0, PFModeSetting::Paxos);
    let accepted = RoundV::PaxosV { accept_round: Some(round(0, 1)), v: 9 };
    hears(&mut leader, 1, prepare(0, round(1, 0), not_accepted(7)));
    assert_eq!(leader.max_rv(), Some(not_accepted(7)));
    hears(&mut leader, 2, prepare(0, round(1, 0), accepted));
    assert_eq!(leader.max_rv(), Some(accepted));
    let reply = hears(&mut leader, 3, prepare(0, round(1, 0), not_accepted(5)));
    let sent = reply.messages[0].expect("an Accept");
    assert_eq!(sent.message.msg, accept(0, round(1, 0), 9));
}

#[test]
fn an_accept_heard_twice_counts_once_and_another_value_is_refused_with_9() {
    // Replica 0 hears accepts of round (0,2) from 1 where it is the committer.
    let settings = Settings { first_leader: 2, committers: Some([0; 64]), ..Settings::all_live(5, 0, PFModeSetting::MultiPaxos3P) };
    let mut shard = begun(&settings);
    let mut hear = |v| {
        let msg = accept(0, round(0, 2), v);
        let delivery = Delivery::of(ConsensusMessage { msg, src: 1, last_v: None });
        let said = Said { requester: Some(3), ..delivery.said };
        let reply = shard.receive(Delivery { said, held_requester: Some(3), ..delivery });
        let accepted = shard.flat().state.rounds.core.accepted_set;
        (reply.outcome, accepted.count_ones())
    };
    assert_eq!(hear(9), (Ok(()), 2));
    assert_eq!(hear(9), (Ok(()), 2));
    assert_eq!(hear(8), (Err(Refusal::AcceptUnlikeHeld), 2));
    assert_eq!(Refusal::AcceptUnlikeHeld.number(), 9);
}

/// EPaxos, five: 4 proposes 40; 1 answers proposer 0, value 10; then this answer.
fn adopted(src: u64, proposer: u64, v: u64) -> Option<ConsensusMsg> {
    let mut shard = member(5, 4, PFModeSetting::EPaxos);
    shard.propose(40);
    let answer = |proposer, v| prepare(0, round(0, 4), RoundV::FastV { proposer, v });
    assert_eq!(hears(&mut shard, 1, answer(0, 10)).messages, [None; 3]);
    let reply = hears(&mut shard, src, answer(proposer, v));
    reply.messages[0].map(|sent| sent.message.msg)
}

#[test]
fn epaxos_adopts_the_best_score_and_in_a_tie_the_lowest_proposer() {
    assert_eq!(adopted(2, 4, 40), Some(accept(0, round(0, 4), 10)));
    assert_eq!(adopted(3, 2, 20), Some(accept(0, round(0, 4), 10)));
}

#[test]
fn a_group_of_one_sends_prepare_and_does_not_commit() {
    let mut alone = member(1, 0, PFModeSetting::Paxos);
    let reply = alone.propose(10);
    assert_eq!((reply.outcome, reply.commit), (Ok(()), None));
    let sent: Vec<_> = reply.sent().collect();
    assert_eq!(sent.len(), 1);
    assert_eq!(sent[0].destination, Destination::All(None));
    assert_eq!(sent[0].message.msg, prepare(0, round(0, 0), not_accepted(10)));
    assert_eq!(sent[0].receivers(1).count(), 0);
    assert_eq!(alone.propose(11).outcome, Err(Refusal::ProposalNotAllowed));
}

#[test]
fn with_a_quorum_of_1_a_new_read_waits_for_the_next_response_or_commit() {
    // A second process, which is no replica, so that somebody can answer.
    let settings = Settings { replica_count: 1, alive_replicas: 0b1, ..Settings::all_live(2, 0, PFModeSetting::Paxos) };
    let opened = || {
        let mut shard = begun(&settings);
        let reply = shard.start_read(7, 0);
        assert_eq!(reply.messages[0].unwrap().message.msg, ConsensusMsg::ReadRequest { id: ReadId(0) });
        assert!(reply.served_reads.is_empty());
        assert_eq!(shard.open_reads().map(|read| read.tag).collect::<Vec<_>>(), [7]);
        shard
    };
    let response = ConsensusMsg::ReadResponse { id: ReadId(0), next_readable_slot: 0 };
    for msg in [response, ConsensusMsg::Commit { slot: 0, v: 3 }] {
        let mut shard = opened();
        let served = hears(&mut shard, 1, msg).served_reads;
        assert_eq!(served.iter().map(|read| read.tag).collect::<Vec<_>>(), [7], "{msg:?}");
        assert_eq!(shard.open_reads().count(), 0);
    }
}

#[test]
fn at_slot_4_a_prepare_of_3_does_nothing_one_of_4_is_handled_and_one_of_5_refused() {
    let mut shard = member(5, 1, PFModeSetting::Paxos);
    for slot in 0..4 {
        hears(&mut shard, 0, ConsensusMsg::Commit { slot, v: slot });
    }
    assert_eq!((shard.slot(), shard.last_v()), (4, Some(3)));
    let before = shard.clone();
    let mut at = |slot| {
        let reply = hears(&mut shard, 0, prepare(slot, round(0, 0), not_accepted(10)));
        (reply.outcome, reply.sent().count(), shard != before)
    };
    assert_eq!(at(3), (Ok(()), 0, false));
    assert_eq!(at(5), (Err(Refusal::SlotAhead), 0, false));
    assert_eq!(at(4), (Ok(()), 1, true));
}

#[test]
fn limits_of_the_settings() {
    let made = |settings: Settings| begun(&settings).made();
    let of = |count| Settings::all_live(count, 0, PFModeSetting::Paxos);
    let outside = Err(Refusal::SettingsOutsideLimits);
    assert_eq!(made(of(64)), Ok(()));
    assert_eq!(made(of(1)), Ok(()));
    assert_eq!(made(of(65)), outside);
    assert_eq!(made(of(0)), outside);
    assert_eq!(made(Settings { replica_count: 0, alive_replicas: 0, ..of(5) }), outside);
    assert_eq!(made(Settings { replica_count: 6, ..of(5) }), outside);
    assert_eq!(made(Settings { replica_count: 4, ..of(5) }), outside, "five are live");
    assert_eq!(made(Settings { alive_replicas: 1 << 5, ..of(5) }), outside);
    assert_eq!(made(Settings { my_pid: 5, ..of(5) }), outside);
    assert_eq!(made(Settings { first_leader: 5, ..of(5) }), outside);
    assert_eq!(made(Settings { committers: Some([5; 64]), ..of(5) }), outside);
    assert_eq!(made(Settings { mode: PFModeSetting::Pando { delegates: [5; 64] }, ..of(5) }), outside);
    assert_eq!(made(Settings { mode: PFModeSetting::SwiftPaxos { quorum: Some(1 << 5) }, ..of(5) }), outside);
}

/// Document 02, E13: "one above 2^63−2 gives 1".
#[test]
fn limits_of_the_slot_of_whole_mhz() {
    let made = |slot| Shard::new(&GroupSettings::new(Settings::all_live(5, 0, PFModeSetting::Paxos), slot)).made();
    for slot in [0, 1, LAST_SLOT] {
        assert_eq!(made(slot), Ok(()));
    }
    for slot in [LAST_SLOT + 1, LAST_SLOT + 2, u64::MAX] {
        assert_eq!(made(slot), Err(Refusal::SettingsOutsideLimits));
    }
}

/// Document 02, E8: "More than 128 windows give 1"; 17 is "checked when settings are made, after 1".
#[test]
fn limits_of_the_windows() {
    let made = |settings: &Settings, slot, windows: &[Window]| {
        Shard::new(&GroupSettings::new(settings.clone(), slot).with_windows(windows.to_vec())).made().map_err(Refusal::number)
    };
    let five = Settings::all_live(5, 0, PFModeSetting::Paxos);
    let fits = Window::new(Date::new(1970, 1, 1, 0, 0), Date::new(9999, 12, 31, 23, 59));
    let unfit = Window::new(fits.end, fits.end);
    assert_eq!(made(&five, 0, &[]), Ok(()));
    assert_eq!(made(&five, 0, &[fits; 128]), Ok(()));
    assert_eq!(made(&five, 0, &[fits; 129]), Err(1));
    assert_eq!(made(&five, 0, &[unfit; 129]), Err(1));
    assert_eq!(made(&five, LAST_SLOT, &[fits, unfit]), Err(17));
    assert_eq!(made(&five, LAST_SLOT + 1, &[fits, unfit]), Err(1));
    assert_eq!(made(&Settings { my_pid: 5, ..five.clone() }, 0, &[unfit]), Err(1));

    let start = |date| made(&five, 0, &[Window::new(date, fits.end)]);
    for date in [Date::new(2000, 2, 29, 0, 0), Date::new(2024, 2, 29, 23, 59), Date::new(9999, 12, 31, 23, 58)] {
        assert_eq!(start(date), Ok(()), "{date}");
    }
    let missing = [
        Date::new(1969, 12, 31, 0, 0),
        Date::new(10000, 1, 1, 0, 0),
        Date::new(2100, 2, 29, 0, 0),
        Date::new(2023, 13, 1, 0, 0),
        Date::new(2023, 4, 31, 0, 0),
        Date::new(2023, 4, 0, 0, 0),
        Date::new(2023, 4, 1, 24, 0),
        Date::new(2023, 4, 1, 0, 60),
        Date::new(u64::MAX, u64::MAX, u64::MAX, u64::MAX, u64::MAX),
    ];
    for date in missing {
        assert_eq!(start(date), Err(17), "{date}");
        assert_eq!(made(&five, 0, &[fits, Window::new(fits.start, date)]), Err(17), "{date}");
    }
}

fn refuses_every_call_with(refusal: Refusal, mut shard: Shard) {
    let before = shard.clone();
    let commit = ConsensusMessage { msg: ConsensusMsg::Commit { slot: 0, v: 1 }, src: 0, last_v: None };
    let calls =
        [Call::Propose(1), Call::Propose(u64::MAX), Call::StartRead { tag: 1, arrival_slot: 0 }, Call::Receive(Delivery::of(commit))];
    for call in calls {
        assert_eq!(shard.call(call).outcome, Err(refusal));
    }
    assert_eq!(shard, before);
}

#[test]
fn an_unmade_shard_refuses_every_call_with_1_or_17() {
    refuses_every_call_with(Refusal::SettingsOutsideLimits, member(65, 0, PFModeSetting::Paxos));
    for mode in [PFModeSetting::Paxos, PFModeSetting::EPaxos] {
        let settings = Settings::all_live(5, 0, mode);
        refuses_every_call_with(Refusal::SettingsOutsideLimits, Shard::new(&GroupSettings::new(settings.clone(), LAST_SLOT + 1)));
        let unfit = GroupSettings::new(settings, LAST_SLOT).with_windows(vec![Window::default()]);
        refuses_every_call_with(Refusal::NotInCalendar, Shard::new(&unfit));
    }
}

#[test]
fn the_129th_open_read_is_refused_with_12() {
    let mut shard = member(5, 1, PFModeSetting::Paxos);
    for tag in 0..128 {
        assert_eq!(shard.start_read(tag, 0).outcome, Ok(()));
    }
    assert_eq!(shard.start_read(128, 0).outcome, Err(Refusal::NoRoomForRead));
    assert_eq!(shard.open_reads().count(), 128);
    let reply = hears(&mut shard, 0, ConsensusMsg::Commit { slot: 0, v: 1 });
    assert_eq!(reply.served_reads.len() + shard.open_reads().count(), 128);
}

#[test]
fn the_other_numbers_of_document_01() {
    let commit = |slot| ConsensusMsg::Commit { slot, v: 1 };
    let heard = |shard: &mut Shard, src, msg| hears(shard, src, msg).outcome.map_err(Refusal::number);
    let paxos = || member(5, 1, PFModeSetting::Paxos);

    assert_eq!(heard(&mut member(65, 1, PFModeSetting::Paxos), 0, commit(0)), Err(1));
    assert_eq!(heard(&mut paxos(), 0, commit((1 << 63) - 1)), Err(2));
    assert_eq!(heard(&mut paxos(), 5, commit(0)), Err(3));
    assert_eq!(heard(&mut paxos(), 0, commit(1)), Err(5));
    assert_eq!(heard(&mut paxos(), 1, ConsensusMsg::ReadRequest { id: ReadId(0) }), Err(8));
    assert_eq!(paxos().propose(1 << 63).outcome, Err(Refusal::NumberTooLarge));

    let mut later = paxos();
    hears(&mut later, 0, commit(0));
    let other_last = ConsensusMessage { msg: commit(1), src: 0, last_v: Some(2) };
    assert_eq!(later.receive(Delivery::of(other_last)).outcome, Err(Refusal::OtherLastValue));

    let mut not_held = Delivery::of(ConsensusMessage { msg: commit(0), src: 0, last_v: None });
    not_held.said.value_held = false;
    assert_eq!(paxos().receive(not_held).outcome, Err(Refusal::ValueNotHeld));

    let without_2 = Settings { alive_replicas: 0b11011, ..Settings::all_live(5, 1, PFModeSetting::Paxos) };
    let from_2 = prepare(0, round(0, 2), not_accepted(7));
    assert_eq!(heard(&mut begun(&without_2), 2, from_2), Err(7));

    let mut proposer = member(7, 0, PFModeSetting::EPaxos);
    proposer.propose(10);
    let answer = prepare(0, round(0, 0), RoundV::FastV { proposer: 0, v: 10 });
    assert_eq!(heard(&mut proposer, 1, answer), Ok(()));
    assert_eq!(heard(&mut proposer, 1, answer), Err(10));
}
