//! The register of cells beside a model in plain Rust, which is written from document 02 alone: over random entries, damaged ones among them, every
//! outcome, figure, cell and report is compared after each entry. Then equal offices, and registers of any numbers.
mod model;
mod numbers;
mod support;

use chanbook_shard::catch_up::{CommitList, ListRefusal};
use chanbook_shard::planning_sys::{self as sys, FlatRegister};
use chanbook_shard::register::{Applied, Assignment, Cell, CellEntry, CellNumber, Change, EntryRefusal, Figures, Register, StoredRegister};
use chanbook_shard::windows::Window;
use chanbook_shard::{GroupSettings, LAST_SLOT, Settings};
use model::{Model, group};
use numbers::any_number;
use std::collections::BTreeMap;
use support::Random;

/// An entry as numbers: a kind that is neither 1 nor 2 may stand in it.
#[derive(Clone, Copy, Debug)]
struct Numbers {
    slot: u64,
    kind: u64,
    cell: CellNumber,
    carrier: u64,
    width: u64,
}

impl Numbers {
    /// The entry, if its kind is known.
    fn entry(self) -> Option<CellEntry> {
        let change = match self.kind {
            1 => Change::Assign(Assignment { carrier: self.carrier, width: self.width }),
            2 => Change::Release,
            _ => return None,
        };
        Some(CellEntry { slot: self.slot, cell: self.cell, change })
    }
}

/// What became of the entry as a number: 0, 64, or document 02's.
fn number_of(outcome: Result<Applied, EntryRefusal>) -> u64 {
    match outcome {
        Ok(Applied::Done) => 0,
        Ok(Applied::Older) => 64,
        Err(refusal) => refusal.number(),
    }
}

/// The entry through the safe type, and where its kind is unknown there through the numbers.
fn apply(register: &mut Register, entry: Numbers) -> u64 {
    if let Some(entry) = entry.entry() {
        return number_of(register.apply(&entry));
    }
    let Numbers { slot, kind, cell, carrier, width } = entry;
    let mut flat = Box::new(*register.flat());
    let FlatRegister { settings, cells, carriers, widths, figures } = &mut *flat;
    let number = sys::chanbook_register_entry(settings, cells, carriers, widths, figures, slot, kind, cell, carrier, width);
    *register = Register::from_flat(flat);
    number
}

/// The live cells of a register that is made.
fn cells(register: &Register) -> impl Iterator<Item = Cell> {
    register.cells().expect("made")
}

/// The entry on both sides: number, next slot, figures, cells and report are the same.
fn apply_both(register: &mut Register, model: &mut Model, entry: Numbers) -> u64 {
    let number = apply(register, entry);
    let expected = match entry.entry() {
        Some(entry) => model.apply(&entry),
        None => model.apply_unknown(entry.slot),
    };
    assert_eq!(number, expected, "{entry:?}");
    assert_eq!(register.next_slot(), Ok(model.last_seen.map_or(0, |last| last + 1)), "{entry:?}");
    let figures = model.figures();
    assert_eq!(register.figures(), Ok(figures), "{entry:?}");
    assert_eq!(figures.made, figures.superseded + figures.released + figures.live);
    let live = model.live.iter().map(|(&number, &assignment)| Cell { number, assignment });
    assert!(cells(register).eq(live), "{entry:?}");
    let line = [figures.made, figures.superseded, figures.released, figures.live].map(|figure| figure.to_string()).join(",");
    assert_eq!(register.report(), format!("made,superseded,released,live\r\n{line}\r\n"), "{entry:?}");
    number
}

/// One time in so many the damaged number, else the sound one.
fn seldom(random: &mut Random, times: usize, damaged: impl Fn(&mut Random) -> u64, sound: u64) -> u64 {
    if random.below(times) == 0 { damaged(random) } else { sound }
}

/// A slot near the next one: most are the next, some leave slots out, some are repeated or older, and few are any number above 2^63−2.
fn some_slot(random: &mut Random, next: u64) -> u64 {
    match random.below(40) {
        0..3 => next.saturating_sub(1),
        3..6 => next.saturating_sub(random.next() % 100),
        6..9 => next + random.next() % 5,
        9 => (1 << 63) - 1 + random.next() % (1 << 63),
        10 => [LAST_SLOT + 1, LAST_SLOT + 2, u64::MAX][random.below(3)],
        _ => next,
    }
}

/// An entry on one of the first `cells` cells, spread over all numbers; a release one time in `releases`.
fn some_entry(random: &mut Random, next: u64, cells: u64, releases: usize) -> Numbers {
    let any_carrier = |random: &mut Random| [3_279_165, 3_279_166, 1 << 32, any_number(random)][random.below(4)];
    let any_width = |random: &mut Random| [0, 1, 400_000, 400_001, any_number(random)][random.below(5)];
    let kind = 1 + u64::from(random.below(releases) == 0);
    let (carrier, width) = (random.next() % 3_279_166, 1 + random.next() % 400_000);
    Numbers {
        slot: some_slot(random, next),
        kind: seldom(random, 50, any_number, kind),
        cell: ((random.next() % cells) * u64::from(CellNumber::MAX) / (cells - 1)) as CellNumber,
        carrier: seldom(random, 20, any_carrier, carrier),
        width: seldom(random, 20, any_width, width),
    }
}

/// How often each number came.
type Numbered = BTreeMap<u64, usize>;

/// Random entries from a new register on, each compared.
fn beside_the_model(seed: u64, cells: u64, releases: usize, entries: usize) -> Numbered {
    from_a_slot(LAST_SLOT, seed, cells, releases, entries)
}

/// The same, with widths in whole MHz from a slot on.
fn from_a_slot(slot: u64, seed: u64, cells: u64, releases: usize, entries: usize) -> Numbered {
    let (mut random, mut numbered) = (Random(seed), Numbered::new());
    let (mut register, mut model) = (Register::new(&group(slot)), Model::new(slot));
    for _ in 0..entries {
        let next = some_entry(&mut random, register.next_slot().expect("made"), cells, releases);
        *numbered.entry(apply_both(&mut register, &mut model, next)).or_default() += 1;
    }
    numbered
}

#[test]
fn few_cells_as_the_model() {
    let numbered = beside_the_model(1, 12, 3, 60_000);
    assert!([0, 2, 14, 16, 64].iter().all(|number| numbered[number] > 1_000), "{numbered:?}");
}

#[test]
fn about_512_cells_as_the_model() {
    let numbered = beside_the_model(2, 700, 8, 60_000);
    assert!([0, 2, 14, 15, 16, 64].iter().all(|number| numbered[number] > 1_000), "{numbered:?}");
}

#[test]
fn cells_of_every_number_as_the_model() {
    let numbered = beside_the_model(3, 65_536, 30, 60_000);
    assert!([0, 2, 14, 15, 16, 64].iter().all(|number| numbered[number] > 300), "{numbered:?}");
}

#[test]
fn cells_that_come_and_go_as_the_model() {
    let numbered = beside_the_model(4, 513, 2, 60_000);
    assert!([0, 2, 14, 16, 64].iter().all(|number| numbered[number] > 1_000), "{numbered:?}");
}

/// Widths of every kind from slot 20,000 on: the odd ones are refused, and what stands there from before stays until its cell is assigned again or released.
#[test]
fn odd_widths_end_as_the_model() {
    let numbered = from_a_slot(20_000, 7, 700, 8, 60_000);
    assert!([0, 2, 14, 16, 23, 64].iter().all(|number| numbered[number] > 500), "{numbered:?}");
}

#[test]
fn widths_about_the_slot() {
    for named in [0, 1, 7, LAST_SLOT] {
        for width in [1, 999, 1_000, 1_001, 1_500, 399_999, 400_000] {
            let (mut register, mut model) = (Register::new(&group(named)), Model::new(named));
            for slot in [named.saturating_sub(1), named, named + 1] {
                apply_both(&mut register, &mut model, Numbers { slot, kind: 1, cell: 7, carrier: 1, width });
            }
        }
    }
}

/// Every call gives the number of the settings, 1 or 17, and no number changes.
#[test]
fn a_register_that_is_not_made() {
    let outside = GroupSettings { settings: Settings { my_pid: 3, ..group(5).settings }, ..group(5) };
    let no_window = [Window::default()];
    let (unmade, calendar) = (EntryRefusal::Unmade, EntryRefusal::NotInCalendar);
    let settings = [
        (group(LAST_SLOT + 1), unmade),
        (group(u64::MAX), unmade),
        (outside.clone(), unmade),
        (group(5).with_windows(no_window.to_vec()), calendar),
        (outside.with_windows(no_window.to_vec()), unmade),
        (group(5).with_windows(vec![no_window[0]; 129]), unmade),
    ];
    for (settings, why) in settings {
        let mut register = Register::new(&settings);
        assert_eq!(register.made(), Err(why));
        let before = register.clone();
        for (slot, kind) in [(0, 1), (0, 2), (0, 3), (u64::MAX, 1)] {
            assert_eq!(apply(&mut register, Numbers { slot, kind, cell: 7, carrier: u64::MAX, width: 1 }), why.number());
        }
        assert_eq!(register.feed(&CommitList::default(), |_| (7, Change::Release)).map_err(ListRefusal::number), Err(why.number()));
        assert_eq!(register, before);
        let stored = StoredRegister { cells: [7; 512], carriers: [7; 512], widths: [7; 512], figures: [7; 5] };
        for unmade in [register, Register::from_stored(&stored, &settings)] {
            assert_eq!(unmade.made(), Err(why));
            assert_eq!(unmade.report(), format!("refused,{}\r\n", why.number()));
            assert_eq!((unmade.figures(), unmade.next_slot()), (Err(why), Err(why)));
            assert_eq!(unmade.cells().err(), Some(why));
        }
    }
    assert_eq!(Register::new(&group(LAST_SLOT)).made(), Ok(()));
}

#[test]
fn the_last_slot_is_taken_and_none_after_it() {
    let (mut register, mut model) = (Register::new(&group(LAST_SLOT)), Model::new(LAST_SLOT));
    for slot in [LAST_SLOT - 1, LAST_SLOT + 1, LAST_SLOT, LAST_SLOT, LAST_SLOT + 1, u64::MAX, 0] {
        apply_both(&mut register, &mut model, Numbers { slot, kind: 1, cell: 7, carrier: 1, width: 1_000 });
    }
    assert_eq!((register.next_slot(), register.figures().map(|figures| figures.made)), (Ok(LAST_SLOT + 1), Ok(2)));
}

/// The one office gets the entries in slot order, the other also repeats of their slots between them, with the same or another entry: all numbers of the
/// two registers are equal after each slot.
#[test]
fn equal_entries_equal_registers() {
    let mut random = Random(5);
    let (mut one, mut other) = (Register::new(&group(9_000)), Register::new(&group(9_000)));
    let mut given: Vec<Numbers> = vec![];
    for _ in 0..20_000 {
        while !given.is_empty() && random.below(3) != 0 {
            let again = given[random.below(given.len())];
            let another = some_entry(&mut random, 0, 700, 6);
            assert_eq!(apply(&mut other, Numbers { slot: again.slot, ..if random.below(2) == 0 { again } else { another } }), 64);
        }
        let next = Numbers { slot: one.next_slot().expect("made") + random.next() % 3, ..some_entry(&mut random, 0, 700, 6) };
        assert_eq!(apply(&mut one, next), apply(&mut other, next));
        assert_eq!(one, other);
        given.push(next);
    }
}

/// A register of any numbers, with few and with too many live cells.
fn any_register(random: &mut Random) -> FlatRegister {
    let mut figures = std::array::from_fn(|_| any_number(random));
    if random.below(2) == 0 {
        figures[sys::LIVE] = [0, 1, 511, 512, 513][random.below(5)];
    }
    let mut row = || std::array::from_fn(|_| any_number(random));
    let settings = [[0, 0, 0, 1][(figures[sys::MADE] % 4) as usize], figures[sys::RELEASED]];
    FlatRegister { cells: row(), carriers: row(), widths: row(), figures, settings }
}

#[test]
fn registers_of_any_numbers_give_an_answer() {
    let mut random = Random(6);
    for _ in 0..3_000 {
        let flat = any_register(&mut random);
        let mut register = Register::from_flat(Box::new(flat));
        let slot = seldom(&mut random, 2, any_number, flat.figures[sys::NEXT_SLOT]);
        let next = Numbers { slot, ..some_entry(&mut random, 0, 65_536, 2) };
        let number = apply(&mut register, next);
        let mut seen = flat;
        seen.figures[sys::NEXT_SLOT] = next.slot.saturating_add(1);
        match number {
            0 => assert_eq!(register.next_slot(), Ok(next.slot + 1)),
            1 | 2 | 64 => assert_eq!(*register.flat(), flat, "{next:?}"),
            14..=16 | 23 => assert_eq!(*register.flat(), seen, "{next:?}"),
            _ => panic!("{number} for {next:?}"),
        }
        match (register.figures(), register.cells()) {
            (Ok(Figures { live, .. }), Ok(cells)) => assert!(live <= 512 && cells.count() as u64 <= live),
            (figures, cells) => assert!(number == 1 && figures.is_err() && cells.is_err()),
        }
        assert!(register.report().is_ascii());
    }
}

/// Cells 0 to 511 are live.
fn full() -> Register {
    let mut register = Register::new(&group(LAST_SLOT));
    for cell in 0..512 {
        apply(&mut register, Numbers { slot: cell, kind: 1, cell: cell as CellNumber, carrier: cell, width: 1 });
    }
    register
}

#[test]
fn a_damaged_count_above_512_stands_for_512() {
    let sound = full();
    for count in [513, 1 << 16, (1 << 32) + 1, u64::MAX] {
        let mut damaged = *sound.flat();
        damaged.figures[sys::LIVE] = count;
        for (kind, cell) in [(1, 0), (1, 511), (1, 512), (2, 0), (2, 300), (2, 511), (2, 512)] {
            let next = Numbers { slot: 512, kind, cell, carrier: 7, width: 7 };
            let (mut one, mut other) = (sound.clone(), Register::from_flat(Box::new(damaged)));
            assert_eq!(apply(&mut one, next), apply(&mut other, next), "{count} {next:?}");
            assert!(one.figures() == other.figures() && cells(&one).eq(cells(&other)), "{count} {next:?}");
            assert_eq!(one.report(), other.report());
        }
    }
}
