//! Positions and questions beside a plain model, over random registers and questions.
mod model;
mod support;
mod wall;

use chanbook_shard::LAST_SLOT;
use chanbook_shard::catch_up::{CommitList, ListRefusal};
use chanbook_shard::reach::{PlacedCell, PlacedEntry, PlacedRegister, Position, Question, Said};
use chanbook_shard::register::{Applied, Assignment, Change, Register};
use model::group;
use std::collections::BTreeMap;
use support::Random;

/// The live cells, with their positions, and the next slot.
#[derive(Default)]
struct Model {
    next_slot: u64,
    live: BTreeMap<u64, (Assignment, Option<Position>)>,
}

impl Model {
    /// 0, 64 or document 02's number. Widths need not be in whole MHz.
    fn apply(&mut self, entry: &PlacedEntry) -> u64 {
        if entry.slot > (1 << 63) - 2 {
            return 2;
        }
        if entry.slot < self.next_slot {
            return 64;
        }
        self.next_slot = entry.slot + 1;
        let cell = u64::from(entry.cell);
        match entry.said {
            Said::Change(Change::Assign(assignment)) => {
                if assignment.carrier > 3_279_165 || !(1..=400_000).contains(&assignment.width) {
                    return 14;
                }
                if self.live.len() == 512 && !self.live.contains_key(&cell) {
                    return 15;
                }
                let position = self.live.get(&cell).and_then(|held| held.1);
                self.live.insert(cell, (assignment, position));
            }
            Said::Change(Change::Release) => {
                if self.live.remove(&cell).is_none() {
                    return 16;
                }
            }
            Said::Position(position) => {
                if position.x.unsigned_abs() > 2_000_000 || position.y.unsigned_abs() > 2_000_000 {
                    return 21;
                }
                match self.live.get_mut(&cell) {
                    None => return 16,
                    Some(held) => held.1 = Some(position),
                }
            }
        }
        0
    }

    fn cells(&self) -> Vec<PlacedCell> {
        self.live.iter().map(|(&number, &(assignment, position))| PlacedCell { number, assignment, position }).collect()
    }
}

fn coordinate(random: &mut Random, spread: u64) -> i64 {
    match random.below(40) {
        0 => [2_000_000, -2_000_000, 2_000_001, -2_000_001, i64::MIN, i64::MAX][random.below(6)],
        _ => (random.next() % (2 * spread + 1)) as i64 - spread as i64,
    }
}

fn some_entry(random: &mut Random, slot: u64, cells: u64) -> PlacedEntry {
    let slot = match random.below(30) {
        0 => slot.saturating_sub(1 + random.next() % 3),
        1 => u64::MAX,
        _ => slot + random.next() % 2,
    };
    let said = match random.below(9) {
        0 => Said::Change(Change::Release),
        1..=4 => {
            let width = if random.below(40) == 0 { 0 } else { random.next() % 40_000 };
            Said::Change(Change::Assign(Assignment { carrier: 630_000 + random.next() % 2_000, width }))
        }
        _ => Said::Position(Position { x: coordinate(random, 3_000), y: coordinate(random, 3_000) }),
    };
    PlacedEntry { slot, cell: (random.next() % cells) as u32, said }
}

fn both(register: &mut PlacedRegister, model: &mut Model, entry: &PlacedEntry) -> u64 {
    let number = match register.apply(entry) {
        Ok(Applied::Done) => 0,
        Ok(Applied::Older) => 64,
        Err(refused) => refused.number(),
    };
    assert_eq!(number, model.apply(entry), "{entry:?}");
    number
}

#[test]
fn entries_and_questions_as_the_model() {
    let mut counted: BTreeMap<u64, usize> = BTreeMap::new();
    for seed in 1..9 {
        let (mut random, cells) = (Random(seed), [3, 40, 900][seed as usize % 3]);
        let (mut register, mut model) = (PlacedRegister::new(&group(LAST_SLOT)), Model::default());
        for _ in 0..4_000 {
            let entry = some_entry(&mut random, model.next_slot, cells);
            *counted.entry(both(&mut register, &mut model, &entry)).or_default() += 1;
            assert!(register.cells().expect("made").eq(model.cells()), "{entry:?}");
            assert_eq!(register.register().figures().expect("made").live, model.live.len() as u64);
            let question = Question {
                width: if random.below(30) == 0 { [0, 400_001][random.below(2)] } else { random.next() % 40_000 },
                position: Position { x: coordinate(&mut random, 3_000), y: coordinate(&mut random, 3_000) },
                distance: if random.below(30) == 0 { 5_999_999 + random.next() % 3 } else { random.next() % 6_000 },
            };
            let carrier = 630_000 + random.next() % 2_000;
            let wanted = wall::conflicts(&model.cells(), carrier, &question);
            assert_eq!(register.conflicts(carrier, &question).map_err(|refused| refused.number()), wanted, "{question:?}");
            let last = carrier + random.next() % 300 - random.next() % 20;
            let wanted = wall::first_free(&model.cells(), carrier, last, &question);
            assert_eq!(register.first_free(carrier..=last, &question).map_err(|refused| refused.number()), wanted, "{question:?}");
            *counted.entry(1_000 + wanted.err().unwrap_or(0)).or_default() += 1;
        }
    }
    assert!([0, 2, 14, 15, 16, 21, 64, 1_000, 1_014, 1_021, 1_022].iter().all(|number| counted[number] > 50), "{counted:?}");
}

/// Overlap to half a kHz, at the joints of the raster's ranges, and distances exactly equal and one more.
#[test]
fn edges() {
    for carrier in [0, 1, 599_999, 600_000, 2_016_666, 2_016_667, 3_279_165] {
        for (cell_width, width) in [(1, 1), (5, 5), (9, 10), (10, 11), (15, 15), (30, 29), (59, 60), (60, 61), (400_000, 399_999)] {
            let (mut register, mut model) = (PlacedRegister::new(&group(LAST_SLOT)), Model::default());
            let assignment = Assignment { carrier, width: cell_width };
            both(&mut register, &mut model, &PlacedEntry { slot: 0, cell: 9, said: Said::Change(Change::Assign(assignment)) });
            both(&mut register, &mut model, &PlacedEntry { slot: 1, cell: 9, said: Said::Position(Position { x: -3_000, y: 4_000 }) });
            for distance in [4_999, 5_000, 5_001] {
                let question = Question { width, position: Position { x: 0, y: 0 }, distance };
                for other in (carrier.saturating_sub(20)..carrier + 20).filter(|number| *number <= 3_279_165) {
                    assert_eq!(register.conflicts(other, &question).unwrap(), wall::conflicts(&model.cells(), other, &question).unwrap());
                    let wanted = wall::first_free(&model.cells(), other, carrier, &question);
                    assert_eq!(
                        register.first_free(other..=carrier, &question).map_err(|refused| refused.number()),
                        wanted,
                        "{other} {question:?}"
                    );
                }
            }
        }
    }
}

/// Lists that are fed in pieces, with positions, against the same entries one by one; a list past the next slot leaves all as it was.
#[test]
fn fed_as_one_by_one() {
    for seed in 1..9 {
        let mut random = Random(seed);
        let said: Vec<(u32, Said)> = (0..400).map(|_| some_entry(&mut random, 0, 30)).map(|entry| (entry.cell, entry.said)).collect();
        let log: CommitList = (0..400).map(|slot| (slot, slot)).collect();
        let says = |value: u64| said[value as usize];
        let (mut fed, mut model) = (PlacedRegister::new(&group(LAST_SLOT)), Model::default());
        let mut one_by_one = fed.clone();
        let mut begin = 0;
        while begin < 400 {
            let end = (begin + 1 + random.below(60)).min(400);
            let from = begin.saturating_sub(random.below(3));
            let mut first = None;
            for slot in begin..end {
                let (cell, said) = said[slot];
                let number = both(&mut one_by_one, &mut model, &PlacedEntry { slot: slot as u64, cell, said });
                first = first.or((number != 0).then_some((slot as u64, number)));
            }
            let piece: CommitList = log.entries().take(end).skip(from).collect();
            assert_eq!(fed.feed(&piece, says).map(|first| first.map(|(slot, why)| (slot, why.number()))), Ok(first));
            assert_eq!(fed, one_by_one);
            begin = end;
        }
        let past: CommitList = [(401, 3)].into_iter().collect();
        assert_eq!(fed.feed(&past, says), Err(ListRefusal::Gap));
        assert_eq!(fed, one_by_one);
    }
}

/// A register that is put aside and taken up again has its positions.
#[test]
fn put_aside() {
    let mut random = Random(5);
    let (mut register, mut model) = (PlacedRegister::new(&group(LAST_SLOT)), Model::default());
    for _ in 0..500 {
        let entry = some_entry(&mut random, model.next_slot, 40);
        both(&mut register, &mut model, &entry);
    }
    let aside = (*register.register().flat(), *register.flat_positions());
    let mut again = PlacedRegister::from_flat(Register::from_flat(Box::new(aside.0)), Box::new(aside.1));
    assert_eq!(again, register);
    assert!(again.cells().expect("made").eq(model.cells()));
    let entry = some_entry(&mut random, model.next_slot, 40);
    both(&mut again, &mut model, &entry);
}

/// A range that was run to its end has no carrier in it.
#[test]
fn range_run_to_its_end() {
    let register = PlacedRegister::new(&group(LAST_SLOT));
    let question = Question { width: 5, position: Position { x: 0, y: 0 }, distance: 0 };
    let number = |range| register.first_free(range, &question).map_err(|why| why.number());
    for (first, last) in [(0, 0), (0, 3), (600_000, 600_002), (3_279_165, 3_279_165)] {
        assert_eq!(number(first..=last), Ok(first));
        let mut range = first..=last;
        range.by_ref().for_each(drop);
        assert_eq!(number(range), Err(22));
        let mut backwards = first..=last;
        while backwards.next_back().is_some() {}
        assert_eq!(number(backwards), Err(22));
    }
    let mut past = 3_279_166..=3_279_166;
    past.next();
    assert_eq!(number(past), Err(14));
}
