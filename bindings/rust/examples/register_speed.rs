//! An entry of the register of cells beside one on a `BTreeMap` of the standard library, on the same entries, with 512 live cells. The map's side is the
//! model of the tests. The sides take turns, run by run. Prints a table in nanoseconds an entry: the best run of each side, and the median of the
//! ratios of neighbouring runs.
//!
//!     cargo run --release --offline --manifest-path bindings/rust/Cargo.toml --example register_speed
#[path = "../tests/model/mod.rs"]
mod model;

use chanbook_shard::register::{Applied, Assignment, CellEntry, CellNumber, Change, Register};
use model::{Model, group};
use std::hint::black_box;
use std::time::Instant;

/// How many runs each side has. A run is a case's entries once, so short that many are not interrupted on a busy machine.
const RUNS: usize = 5_000;

/// A row of the table. Every timed entry gets the same number, document 02's or the register's own.
struct Case {
    name: &'static str,
    number: u64,
    /// Entries between the 512 assignments and those that are timed.
    before: Vec<CellEntry>,
    timed: Vec<CellEntry>,
}

trait Side: Clone {
    fn enter(&mut self, entry: &CellEntry) -> u64;
}

impl Side for Register {
    fn enter(&mut self, entry: &CellEntry) -> u64 {
        match self.apply(entry) {
            Ok(Applied::Done) => 0,
            Ok(Applied::Older) => 64,
            Err(refusal) => refusal.number(),
        }
    }
}

impl Side for Model {
    fn enter(&mut self, entry: &CellEntry) -> u64 {
        self.apply(entry)
    }
}

/// The numbers from 0 to 511 in an order without a pattern.
fn shuffled() -> Vec<u16> {
    let mut places: Vec<u16> = (0..512).collect();
    let mut row: u64 = 6;
    for last in (1..512).rev() {
        row = row.wrapping_mul(6_364_136_223_846_793_005).wrapping_add(1_442_695_040_888_963_407);
        places.swap(last, (row >> 33) as usize % (last + 1));
    }
    places
}

/// The cell that stands at this place of 512, and a cell that is not live and would stand behind it.
fn live(place: u16) -> CellNumber {
    CellNumber::from(place) * 128
}

fn new(place: u16) -> CellNumber {
    live(place) + 64
}

fn assignment(cell: CellNumber) -> (CellNumber, Change) {
    (cell, Change::Assign(Assignment { carrier: 600_000 + u64::from(cell), width: 20_000 }))
}

fn release(cell: CellNumber) -> (CellNumber, Change) {
    (cell, Change::Release)
}

/// The changes as entries of the slots from `slot` on.
fn entries(slot: u64, changes: impl IntoIterator<Item = (CellNumber, Change)>) -> Vec<CellEntry> {
    (slot..).zip(changes).map(|(slot, (cell, change))| CellEntry { slot, cell, change }).collect()
}

fn case(name: &'static str, number: u64, timed: Vec<(CellNumber, Change)>) -> Case {
    Case { name, number, before: vec![], timed: entries(512, timed) }
}

fn cases() -> Vec<Case> {
    let places = shuffled();
    let all = |change: &dyn Fn(u16) -> (CellNumber, Change)| places.iter().map(|place| change(*place)).collect::<Vec<_>>();
    let some = |change: &dyn Fn(u16) -> (CellNumber, Change)| all(change)[..32].to_vec();
    let odd_width = |place| (live(place), Change::Assign(Assignment { carrier: 1, width: 1_500 }));
    let no_width = |place| (live(place), Change::Assign(Assignment { carrier: 1, width: 0 }));
    let in_turns = places[..256].iter().flat_map(|place| [release(live(*place)), assignment(new(*place))]).collect();
    let highest = vec![assignment(live(511)); 512];
    let lowest = (0..256).flat_map(|_| [release(0), assignment(0)]).collect();
    vec![
        case("assignment of a live cell", 0, all(&|place| assignment(live(place)))),
        case("assignment of the highest cell: the search passes 511 cells", 0, highest),
        case("release and assignment of a new cell, in turns", 0, in_turns),
        case("release, from 512 cells on", 0, some(&|place| release(live(place)))),
        Case {
            name: "assignment of a new cell, up to 512",
            number: 0,
            before: entries(512, some(&|place| release(live(place)))),
            timed: entries(544, some(&|place| assignment(new(place)))),
        },
        case("release and assignment of the lowest cell, in turns: 511 cells move", 0, lowest),
        case("refused with 15: a new cell", 15, all(&|place| assignment(new(place)))),
        case("refused with 16: release of a cell that is not live", 16, all(&|place| release(new(place)))),
        case("refused with 14: a width of 0", 14, all(&no_width)),
        case("refused with 23: a width of 1,500 kHz", 23, all(&odd_width)),
        Case { name: "older slot", number: 64, before: vec![], timed: entries(0, all(&|place| assignment(live(place)))) },
    ]
}

/// Nanoseconds an entry in one run, from a copy of the side.
fn run<S: Side>(begun: &S, timed: &[CellEntry]) -> f64 {
    let mut side = black_box(begun.clone());
    let start = Instant::now();
    for entry in timed {
        black_box(side.enter(black_box(entry)));
    }
    let nanoseconds = start.elapsed().as_nanos();
    black_box(side);
    nanoseconds as f64 / timed.len() as f64
}

/// Both sides give the case's number for every entry, and hold the same cells and figures at the end.
fn assert_equal(case: &Case, mut register: Register, mut map: Model) {
    for entry in &case.timed {
        assert_eq!((register.enter(entry), map.enter(entry)), (case.number, case.number), "{}", case.name);
    }
    assert_eq!(register.figures(), Ok(map.figures()), "{}", case.name);
    assert!(register.cells().expect("made").map(|cell| (cell.number, cell.assignment)).eq(map.live), "{}", case.name);
}

fn time(case: &Case) {
    let (mut register, mut map) = (Register::new(&group(0)), Model::new(0));
    let filling = entries(0, (0..512).map(|place| assignment(live(place))));
    for entry in filling.iter().chain(&case.before) {
        assert_eq!((register.enter(entry), map.enter(entry)), (0, 0));
    }
    assert_equal(case, register.clone(), map.clone());
    let runs: Vec<(f64, f64)> = (0..RUNS).map(|_| (run(&register, &case.timed), run(&map, &case.timed))).collect();
    let least = |side: fn(&(f64, f64)) -> f64| runs.iter().map(side).fold(f64::INFINITY, f64::min);
    let mut ratios: Vec<f64> = runs.iter().map(|(register, map)| register / map).collect();
    ratios.sort_by(f64::total_cmp);
    println!("| {} | {:.0} | {:.0} | {:.2} |", case.name, least(|run| run.0), least(|run| run.1), ratios[ratios.len() / 2]);
}

fn main() {
    println!("| entry | register | `BTreeMap` | ratio |\n|---|---|---|---|");
    cases().iter().for_each(time);
}
