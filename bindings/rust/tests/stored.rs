//! Registers that were stored while cell numbers had 16 bits, read and gone on with; and cells above 65,535. The model is written from document 02 alone.
mod model;
mod numbers;
mod support;

use chanbook_shard::LAST_SLOT;
use chanbook_shard::register::{Assignment, CellEntry, CellNumber, Change, Register, StoredRegister};
use model::{Model, group};
use numbers::any_number;
use support::Random;

/// What an office stored of its register: 16 bits of each cell's number.
fn stored_of(register: &Register) -> StoredRegister {
    let flat = register.flat();
    StoredRegister { cells: flat.cells.map(|cell| cell as u16), carriers: flat.carriers, widths: flat.widths, figures: flat.figures }
}

/// An entry of the next slot, on a cell of at most `largest`; one time in six a release.
fn some_entry(random: &mut Random, slot: u64, cells: u64, largest: CellNumber) -> CellEntry {
    let cell = (random.next() % cells * u64::from(largest) / (cells - 1)) as CellNumber;
    let assignment = Assignment {
        carrier: random.next() % 3_279_166,
        width: if random.below(2) == 0 { 1 + random.next() % 400_000 } else { 1_000 * (1 + random.next() % 400) },
    };
    CellEntry { slot, cell, change: if random.below(6) == 0 { Change::Release } else { Change::Assign(assignment) } }
}

fn apply_both(register: &mut Register, model: &mut Model, entry: &CellEntry) {
    let number = match register.apply(entry) {
        Ok(_) => 0,
        Err(refusal) => refusal.number(),
    };
    assert_eq!(number, model.apply(entry), "{entry:?}");
    assert_eq!(register.figures(), Ok(model.figures()), "{entry:?}");
    assert!(
        register
            .cells()
            .expect("made")
            .map(|cell| (cell.number, cell.assignment))
            .eq(model.live.iter().map(|(&number, &assignment)| (number, assignment))),
        "{entry:?}"
    );
}

/// Old entries, stored and read after each; the report and every number stay. Then entries of longer numbers, beside the model.
fn gone_on_with(seed: u64, cells: u64) {
    let mut random = Random(seed);
    // from slot 2,000 on odd widths are refused: those that were stored stay
    let (mut register, mut model) = (Register::new(&group(2_000)), Model::new(2_000));
    for slot in 0..3_000 {
        apply_both(&mut register, &mut model, &some_entry(&mut random, slot, cells, 65_535));
        let read = Register::from_stored(&stored_of(&register), &group(2_000));
        assert_eq!(read, register);
        assert_eq!(read.report(), register.report());
        register = read;
    }
    for slot in 3_000..6_000 {
        apply_both(&mut register, &mut model, &some_entry(&mut random, slot, cells, CellNumber::MAX));
    }
    assert!(register.cells().expect("made").last().expect("a live cell").number > 65_535);
}

#[test]
fn few_cells_are_gone_on_with() {
    gone_on_with(1, 12);
}

#[test]
fn about_512_cells_are_gone_on_with() {
    gone_on_with(2, 700);
}

/// Cells that have the last 16 bits in common are cells of their own.
#[test]
fn longer_numbers_are_not_cut() {
    let (mut register, mut model) = (Register::new(&group(LAST_SLOT)), Model::new(LAST_SLOT));
    let alike: [CellNumber; 5] = [7, 65_543, 131_079, 2_147_483_655, 4_294_901_767];
    let assignment = |carrier| Change::Assign(Assignment { carrier, width: 1 });
    for (slot, cell) in (0..).zip(alike) {
        apply_both(&mut register, &mut model, &CellEntry { slot, cell, change: assignment(slot) });
    }
    assert_eq!(register.figures().map(|figures| figures.live), Ok(5));
    apply_both(&mut register, &mut model, &CellEntry { slot: 5, cell: 65_543, change: Change::Release });
    assert_eq!(register.cells().expect("made").map(|cell| cell.number).collect::<Vec<_>>(), [7, 131_079, 2_147_483_655, 4_294_901_767]);
}

/// Whatever numbers are stored, they are read as they are.
#[test]
fn any_stored_numbers_are_read() {
    let mut random = Random(3);
    for _ in 0..2_000 {
        let mut row = || std::array::from_fn(|_| any_number(&mut random));
        let (carriers, widths) = (row(), row());
        let cells = std::array::from_fn(|_| any_number(&mut random) as u16);
        let figures = std::array::from_fn(|_| any_number(&mut random));
        let register = Register::from_stored(&StoredRegister { cells, carriers, widths, figures }, &group(LAST_SLOT));
        let flat = register.flat();
        assert_eq!((flat.cells, flat.carriers), (cells.map(u64::from), carriers));
        assert_eq!((flat.widths, flat.figures), (widths, figures));
        assert!(register.report().is_ascii());
    }
}
