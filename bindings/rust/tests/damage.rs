//! Damaged frames and shards of any numbers. Each call ends; it is taken or gives a number from 1 to 12, or 17 where that is the shard's mark; a refusal leaves
//! every number of the shard as it was and hands back the number alone.
mod numbers;
mod support;

use chanbook_shard::sys::{self, FlatCall, FlatGroupSettings, FlatReply, FlatSettings, FlatShard, FlatWindows};
use chanbook_shard::windows::Window;
use chanbook_shard::{Call, GroupSettings, LAST_SLOT, PFModeSetting, Refusal, Settings, Shard};
use numbers::{AT_LIMITS, any_number};
use std::collections::BTreeSet;
use support::{Group, Random, all_modes, begun, five};

/// The outcome of the call, once what must hold of every call was checked.
fn checked(shard: &FlatShard, call: FlatCall) -> u64 {
    let (mut after, mut reply) = (*shard, FlatReply::default());
    sys::chanbook_call(&mut after, &call, &mut reply);
    let marked_17 = shard.made == 17 && shard.settings.mode <= 5;
    assert!(if marked_17 { reply.outcome == 17 } else { reply.outcome <= 12 }, "{} on {call:?}", reply.outcome);
    if reply.outcome != 0 {
        assert_eq!(after.numbers(), shard.numbers(), "{call:?}");
        assert_eq!(reply, FlatReply { outcome: reply.outcome, ..FlatReply::default() }, "{call:?}");
    }
    reply.outcome
}

/// The call with each number replaced in turn by each number at a limit and by a few others.
fn damage_each_number(shard: &FlatShard, call: FlatCall, random: &mut Random) -> BTreeSet<u64> {
    let numbers = call.numbers();
    let mut outcomes = BTreeSet::new();
    for at in 0..FlatCall::NUMBERS {
        let others = [random.next(), random.next() >> 40, numbers[at] ^ 1];
        for n in AT_LIMITS.into_iter().chain(others) {
            let mut damaged = numbers;
            damaged[at] = n;
            outcomes.insert(checked(shard, FlatCall::from_numbers(damaged)));
        }
    }
    outcomes
}

#[test]
fn each_number_of_a_frame_may_be_damaged() {
    let mut outcomes = BTreeSet::new();
    for mode in all_modes() {
        let mut group = Group::new(&five(mode), 5);
        for _ in 0..120 {
            let (member, call) = group.next_call();
            let shard = *group.shards[member].flat();
            outcomes.append(&mut damage_each_number(&shard, call.into(), &mut group.random));
            let _ = group.make(member, call);
            if group.random.below(10) == 0 {
                let _ = group.make(member, Call::StartRead { tag: 1, arrival_slot: 0 });
            }
        }
    }
    for number in [0, 2, 3, 4, 5, 6, 8, 9, 11] {
        assert!(outcomes.contains(&number), "{number} was not met: {outcomes:?}");
    }
}

#[test]
fn a_frame_of_any_numbers() {
    let mut random = Random(11);
    for mode in all_modes() {
        let mut group = Group::new(&five(mode), 6);
        (0..40).for_each(|_| group.step());
        for _ in 0..5000 {
            let member = group.random.below(5);
            let call = FlatCall::from_numbers(std::array::from_fn(|_| any_number(&mut random)));
            checked(group.shards[member].flat(), call);
        }
    }
}

#[test]
fn a_shard_of_any_numbers() {
    let mut random = Random(12);
    for _ in 0..10_000 {
        let shard = FlatShard::from_numbers(std::array::from_fn(|_| any_number(&mut random)));
        let call = FlatCall::from_numbers(std::array::from_fn(|_| any_number(&mut random)));
        checked(&shard, call);
    }
}

#[test]
fn a_made_shard_with_a_state_of_any_numbers() {
    let mut random = Random(13);
    for mode in all_modes() {
        let settings = *begun(&five(mode)).flat();
        for _ in 0..2000 {
            let mut shard = FlatShard::from_numbers(std::array::from_fn(|_| any_number(&mut random)));
            shard.made = settings.made;
            shard.settings = settings.settings;
            let call = FlatCall::from_numbers(std::array::from_fn(|_| any_number(&mut random)));
            checked(&shard, call);
        }
    }
}

#[test]
fn the_readers_take_a_shard_of_any_numbers() {
    let mut random = Random(14);
    for _ in 0..1000 {
        let flat = FlatShard::from_numbers(std::array::from_fn(|_| any_number(&mut random)));
        let mut shard = Shard::from_flat(Box::new(flat));
        assert!(shard.open_reads().count() <= 128);
        let _ = (shard.slot(), shard.last_v(), shard.round(), shard.max_rv());
        let made = shard.made();
        let outcome = shard.propose(any_number(&mut random)).outcome;
        assert_eq!(made.is_err(), outcome == Err(Refusal::SettingsOutsideLimits));
    }
}

/// A mark of 17 comes back as 17, and every other but 0 as 1.
#[test]
fn a_shard_of_any_mark() {
    for mode in all_modes() {
        let begun = *begun(&five(mode)).flat();
        for made in AT_LIMITS.into_iter().chain([16, 17, 18]) {
            let shard = FlatShard { made, ..begun };
            let number = match made {
                0 => Ok(()),
                17 => Err(17),
                _ => Err(1),
            };
            assert_eq!(Shard::from_flat(Box::new(shard)).made().map_err(Refusal::number), number, "{made}");
            if let Err(number) = number {
                assert_eq!(checked(&shard, Call::Propose(1).into()), number, "{made}");
            }
        }
    }
}

/// Every number is written, whatever stood in the memory before.
#[test]
fn a_shard_begins_in_any_memory() {
    let mut random = Random(15);
    for settings in all_modes().into_iter().map(five) {
        let begun = begun(&settings);
        for mark in [0, 1] {
            let whole_mhz_from = LAST_SLOT + mark;
            let group = (&GroupSettings::new(settings.clone(), whole_mhz_from)).into();
            let mut shard = FlatShard::from_numbers(std::array::from_fn(|_| any_number(&mut random)));
            assert_eq!(sys::chanbook_shard_new(group, &mut shard), mark);
            assert_eq!(shard.numbers(), FlatShard { made: mark, ..*begun.flat() }.numbers());
        }
    }
}

#[test]
fn a_mode_that_there_is_not_is_outside_the_limits() {
    let known = begun(&Settings::all_live(5, 0, PFModeSetting::Paxos)).flat().settings;
    for mode in 6..9 {
        let unfit = FlatWindows::from([Window::default()].as_slice());
        let settings = FlatSettings { mode, ..known };
        let shard = FlatShard::begun(&FlatGroupSettings { settings, whole_mhz_from: LAST_SLOT, windows: unfit });
        assert_eq!(shard.made, 1);
        assert_eq!(checked(&shard, Call::Propose(1).into()), 1);
        assert_eq!(Shard::from_flat(shard).made(), Err(Refusal::SettingsOutsideLimits));
    }
}
