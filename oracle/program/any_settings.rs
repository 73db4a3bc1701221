//! Random settings within the limits.
use crate::calls::{Date, LAST_SLOT, Mode, PLACES, Settings, Window};
use crate::random::Random;

/// How many processes the groups have.
#[derive(Clone, Copy)]
pub enum Sizes {
    Small,
    Any,
}

fn process_count(random: &mut Random, sizes: Sizes) -> usize {
    match sizes {
        Sizes::Small => 1 + random.below(6),
        Sizes::Any => match random.below(20) {
            0 => PLACES,
            1 => 1 + random.below(PLACES),
            2 | 3 => 8 + random.below(9),
            _ => 1 + random.below(7),
        },
    }
}

pub fn all_below(count: usize) -> u64 {
    if count >= PLACES { u64::MAX } else { (1 << count) - 1 }
}

/// Replica count and live set: mostly everybody, else fewer live ones than replicas, or as many.
fn replicas(random: &mut Random, process_count: usize) -> (usize, u64) {
    if random.chance(60) {
        return (process_count, all_below(process_count));
    }
    let replica_count = 1 + random.below(process_count);
    let mut alive_replicas = 0u64;
    let tries = if random.chance(50) { 4 * PLACES } else { random.below(process_count + 1) };
    for _ in 0..tries {
        if (alive_replicas.count_ones() as usize) < replica_count {
            alive_replicas |= 1 << random.below(process_count);
        }
    }
    (replica_count, alive_replicas)
}

fn table(random: &mut Random, process_count: usize) -> Vec<usize> {
    let all_one = random.chance(30).then(|| random.below(process_count));
    let named = if random.chance(90) { process_count } else { random.below(process_count + 1) };
    (0..named).map(|_| all_one.unwrap_or_else(|| random.below(process_count))).collect()
}

/// A fixed quorum of SwiftPaxos: mostly of live replicas, and mostly large enough.
fn fixed_quorum(random: &mut Random, replica_count: usize, process_count: usize, alive_replicas: u64) -> u64 {
    let wanted = if random.chance(80) { replica_count / 2 + 1 } else { random.below(process_count + 1) };
    let mut quorum = 0u64;
    for _ in 0..4 * PLACES {
        let member = 1 << random.below(process_count);
        if (quorum.count_ones() as usize) < wanted && (alive_replicas & member != 0 || random.chance(10)) {
            quorum |= member;
        }
    }
    quorum
}

fn first_leader(random: &mut Random, process_count: usize, alive_replicas: u64) -> usize {
    let live: Vec<usize> = (0..process_count).filter(|process| alive_replicas >> process & 1 == 1).collect();
    if live.is_empty() || random.chance(20) { random.below(process_count) } else { random.pick(&live) }
}

/// None for most counts of processes, and for others one window or two.
fn windows(process_count: usize) -> Vec<Window> {
    let of_day = |day| Window {
        start: Date { year: 2024, month: 2, day, hour: 22, minute: 0 },
        end: Date { year: 2024, month: 3, day: 1, hour: 5, minute: 30 },
    };
    match process_count % 6 {
        2 => vec![of_day(29)],
        5 => vec![of_day(29), of_day(28)],
        _ => vec![],
    }
}

pub fn settings(random: &mut Random, mode: Mode, sizes: Sizes) -> Settings {
    let process_count = process_count(random, sizes);
    let (replica_count, alive_replicas) = replicas(random, process_count);
    let has_committers = random.chance(50);
    let has_quorum = random.chance(if mode == Mode::SwiftPaxos { 40 } else { 3 });
    Settings {
        process_count,
        replica_count,
        my_pid: random.below(process_count),
        alive_replicas,
        first_leader: first_leader(random, process_count, alive_replicas),
        mode,
        quorum: has_quorum.then(|| fixed_quorum(random, replica_count, process_count, alive_replicas)),
        has_committers,
        committers: if has_committers || random.chance(5) { table(random, process_count) } else { vec![] },
        delegates: if mode == Mode::Pando || random.chance(5) { table(random, process_count) } else { vec![] },
        whole_mhz_from: [0, 7, LAST_SLOT][process_count % 3],
        windows: windows(process_count),
    }
}
