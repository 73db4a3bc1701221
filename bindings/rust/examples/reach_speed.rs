//! The first free carrier of a range over 512 live cells, beside a plain search in Rust that works out the near cells once and tries number by number. Both
//! sides are asked the same question of the same cells in turns. Prints a table in microseconds a question: the best run of each side.
//!
//!     cargo run --release --offline --manifest-path bindings/rust/Cargo.toml --example reach_speed
#[path = "../tests/wall/mod.rs"]
mod wall;

use chanbook_shard::reach::{PlacedCell, PlacedEntry, PlacedRegister, Position, Question, Said};
use chanbook_shard::register::{Assignment, Change};
use chanbook_shard::{GroupSettings, LAST_SLOT, PFModeSetting, Settings};
use std::hint::black_box;
use std::time::{Duration, Instant};

const LAST: u64 = 3_279_165;

/// A row of the table: 512 cells, and a range.
struct Case {
    name: &'static str,
    assignments: Vec<Assignment>,
    first: u64,
    last: u64,
    width: u64,
}

/// Cells side by side from a carrier on, each 100 MHz wide, in the order of their numbers or against it.
fn side_by_side(first: u64, step: u64, backwards: bool) -> Vec<Assignment> {
    let mut assignments: Vec<_> = (0..512).map(|cell| Assignment { carrier: first + step * cell, width: 100_000 }).collect();
    if backwards {
        assignments.reverse();
    }
    assignments
}

fn cases() -> Vec<Case> {
    // 400 MHz every 6,404 numbers, from the first number of the raster to its last: every carrier overlaps a cell
    let everywhere: Vec<_> = (0..512).map(|cell| Assignment { carrier: LAST * cell / 511, width: 400_000 }).collect();
    let against: Vec<_> = everywhere.iter().rev().copied().collect();
    let case = |name, assignments, first, last, width| Case { name, assignments, first, last, width };
    vec![
        case("all numbers, cells all over the raster", everywhere, 0, LAST, 400_000),
        case("the same, cells against their order", against, 0, LAST, 400_000),
        case("all numbers, 512 cells side by side from 3 GHz on", side_by_side(600_000, 2_700, false), 600_000, LAST, 100_000),
        case("the same, cells against their order", side_by_side(600_000, 2_700, true), 600_000, LAST, 100_000),
        case("the first number is free", side_by_side(600_000, 2_700, false), 0, LAST, 5_000),
    ]
}

fn register_of(assignments: &[Assignment]) -> PlacedRegister {
    let mut register = PlacedRegister::new(&GroupSettings::new(Settings::all_live(3, 0, PFModeSetting::Paxos), LAST_SLOT));
    for (cell, assignment) in (0..).zip(assignments) {
        let said = [Said::Change(Change::Assign(*assignment)), Said::Position(Position { x: i64::from(cell) * 100, y: -i64::from(cell) })];
        for (slot, said) in (2 * u64::from(cell)..).zip(said) {
            register.apply(&PlacedEntry { slot, cell, said }).expect("512 cells have room");
        }
    }
    register
}

fn best(runs: usize, mut run: impl FnMut()) -> Duration {
    (0..runs)
        .map(|_| {
            let start = Instant::now();
            run();
            start.elapsed()
        })
        .min()
        .expect("some runs")
}

fn main() {
    println!("| question | answer | proved | plain search | ratio |");
    println!("|---|---|---|---|---|");
    for Case { name, assignments, first, last, width } in cases() {
        let register = register_of(&assignments);
        let cells: Vec<PlacedCell> = register.cells().expect("made").collect();
        let question = Question { width, position: Position { x: 0, y: 0 }, distance: 6_000_000 };
        let proved = register.first_free(first..=last, &question).map_err(|refused| refused.number());
        assert_eq!(proved, wall::first_free(&cells, first, last, &question), "{name}");
        let (mut fast, mut plain) = (Duration::MAX, Duration::MAX);
        for _ in 0..5 {
            fast = fast.min(best(200, || _ = black_box(register.first_free(first..=last, black_box(&question)))));
            plain = plain.min(best(3, || _ = black_box(wall::first_free(&cells, first, last, black_box(&question)))));
        }
        let micros = |time: Duration| time.as_nanos() as f64 / 1000.0;
        let answer = proved.map_or_else(|number| format!("refused, {number}"), |number| number.to_string());
        println!("| {name} | {answer} | {:.1} | {:.1} | {:.4} |", micros(fast), micros(plain), micros(fast) / micros(plain));
    }
}
