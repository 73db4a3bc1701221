//! A group of five commits a thousand slots while messages are lost, repeated and reordered; every log is equal.
mod support;

use chanbook_shard::PFModeSetting;
use support::{Group, agreeing_modes, five};

const SLOTS: usize = 1000;

fn commits_a_thousand(mode: PFModeSetting, seed: u64) {
    let mut group = Group::new(&five(mode.clone()), seed);
    let mut calls = 0;
    while group.logs.iter().any(|log| log.len() < SLOTS) {
        group.step();
        calls += 1;
        assert!(calls < 1000 * SLOTS, "{mode:?}, seed {seed}: no progress");
    }
    let first = &group.logs[0][..SLOTS];
    for log in &group.logs {
        assert_eq!(&log[..SLOTS], first, "{mode:?}, seed {seed}");
    }
    for (slot, v) in first.iter().enumerate() {
        assert_eq!(v / 64, slot as u64, "a value that was proposed in its slot");
    }
}

#[test]
fn every_log_is_equal_in_the_five_modes() {
    for mode in agreeing_modes() {
        for seed in 1..=3 {
            commits_a_thousand(mode.clone(), seed);
        }
    }
}

#[test]
fn a_run_with_the_same_seed_is_the_same_run() {
    let run = |seed| {
        let mut group = Group::new(&five(PFModeSetting::Paxos), seed);
        (0..5000).for_each(|_| group.step());
        group.logs
    };
    assert_eq!(run(7), run(7));
    assert_ne!(run(7), run(8));
}
