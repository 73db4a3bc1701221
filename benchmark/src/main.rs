//! Times upstream's Rust and this engine on the same streams, in one process, and prints a table in Markdown.
//! Arguments: how many runs, and a part of a name to time only what has it.
mod cases;
mod lent;

use cases::Case;

const SHARDS: usize = 32;
const ROUNDS: usize = 40;
const SLOTS: u64 = 2000;

/// Nanoseconds a call, run by run, of one side.
type Times = Vec<f64>;

fn best(times: &Times) -> f64 {
    times.iter().copied().fold(f64::INFINITY, f64::min)
}

fn median(mut times: Times) -> f64 {
    times.sort_by(f64::total_cmp);
    times[times.len() / 2]
}

/// The median of the ratios, each taken within one run, in which both sides take turns.
fn ratio(of: &Times, to: &Times) -> f64 {
    median(of.iter().zip(to).map(|(a, b)| a / b).collect())
}

fn print_row(name: &str, [bare, full, lent, in_crate]: &[Times; 4]) {
    println!(
        "| {name} | {:.0} | {:.0} | {:.0} | {:.0} | {:.2} | {:.2} |",
        best(bare),
        best(full),
        best(lent),
        best(in_crate),
        ratio(lent, bare),
        ratio(lent, full)
    );
}

fn sum_of_rounds(round: impl FnMut() -> u128) -> u128 {
    std::iter::repeat_with(round).take(ROUNDS).sum()
}

/// Both sides do the same: the slot, the open reads and whether something is sent are equal after the call.
fn time_case(case: &Case, runs: usize) {
    let Case { name, settings, before, call, refused } = case;
    let mut bare = original_bare::Prepared::new(settings, before, call, SHARDS);
    let mut full = original_full::Prepared::new(settings, before, call, SHARDS);
    let mut lent = lent::Prepared::new(settings, before, call, SHARDS);
    let (effect, number) = lent.effect();
    assert_eq!(bare.effect(), effect, "{name}");
    assert_eq!(full.effect(), effect, "{name}");
    assert_eq!(number != 0, *refused, "{name}: {number}");

    let mut times: [Times; 4] = Default::default();
    for run in 0..=runs {
        let sums = [
            sum_of_rounds(|| bare.round()),
            sum_of_rounds(|| full.round()),
            sum_of_rounds(|| lent.round()),
            sum_of_rounds(|| lent.round_in_crate()),
        ];
        // The first run fills the caches.
        if run > 0 {
            for (times, sum) in times.iter_mut().zip(sums) {
                times.push(sum as f64 / (ROUNDS * SHARDS) as f64);
            }
        }
    }
    print_row(name, &times);
}

fn time_cycle(name: &str, settings: &chanbook_shard::Settings, runs: usize) {
    let mut bare = original_bare::Cycle::new(settings);
    let mut full = original_full::Cycle::new(settings);
    let mut lent = lent::Cycle::new(settings);
    let mut times: [Times; 4] = Default::default();
    let mut calls = 0;
    for run in 0..=runs {
        let sides = [bare.run(SLOTS), full.run(SLOTS), lent.run(SLOTS), lent.run_in_crate(SLOTS)];
        calls = sides[0].1;
        assert!(sides.iter().all(|side| side.1 == calls), "{name}: {sides:?}");
        if run > 0 {
            for (times, (sum, calls)) in times.iter_mut().zip(sides) {
                times.push(sum as f64 / calls as f64);
            }
        }
    }
    print_row(&format!("{name}, {} calls a slot", calls / SLOTS), &times);
}

fn main() {
    let arguments: Vec<String> = std::env::args().collect();
    let runs = arguments.get(1).and_then(|runs| runs.parse().ok()).unwrap_or(25);
    let part = arguments.get(2).map_or("", String::as_str);
    println!("| call | bare | full | lent | crate | lent / bare | lent / full |");
    println!("|---|---|---|---|---|---|---|");
    for case in cases::all().iter().filter(|case| case.name.contains(part)) {
        time_case(case, runs);
    }
    for (name, settings) in cases::cycles().iter().filter(|(name, _)| name.contains(part)) {
        time_cycle(name, settings, runs);
    }
}
