//! Lists joined through the library against a plain model, which puts every entry of both lists into one map: random pairs of lists and the limits,
//! with marks in the lent places. Lists fed to a register against entries that are applied one by one.
use chanbook_shard::catch_up::{CommitList, Entries, JOIN_PLACES, LIST_ENTRIES, ListRefusal, join_into};
use chanbook_shard::register::{Assignment, CellEntry, CellNumber, Change, Register};
use chanbook_shard::{GroupSettings, PFModeSetting, Settings};
use std::collections::BTreeMap;

const LAST_SLOT: u64 = (1 << 63) - 2;
const LARGEST_VALUE: u64 = (1 << 63) - 1;

/// A list as its slots and its values, which may be of unequal length.
#[derive(Clone, Debug, Default)]
struct List {
    slots: Vec<u64>,
    values: Vec<u64>,
}

impl List {
    fn entries(&self) -> Entries<'_> {
        Entries { slots: &self.slots, values: &self.values }
    }

    fn is_outside(&self) -> bool {
        self.slots.len() > 4096
            || self.slots.len() != self.values.len()
            || self.slots.windows(2).any(|pair| pair[0].checked_add(1) != Some(pair[1]))
    }
}

/// The value of a slot wherever it stands.
fn value_of(slot: u64) -> u64 {
    slot.wrapping_mul(7) % 1000
}

fn agreed(begin: u64, count: u64) -> List {
    let slots: Vec<u64> = (begin..begin + count).collect();
    let values = slots.iter().map(|slot| value_of(*slot)).collect();
    List { slots, values }
}

/// The number of a refusal, or the entries of both lists: 2, 18, 19, 20 in that order.
fn model(a: &List, b: &List, places: usize) -> Result<Vec<(u64, u64)>, u64> {
    let mut numbers = [a, b].into_iter().flat_map(|l| &l.slots).map(|slot| *slot <= LAST_SLOT);
    let mut others = [a, b].into_iter().flat_map(|l| &l.values).map(|value| *value <= LARGEST_VALUE);
    if !numbers.all(|fits| fits) || !others.all(|fits| fits) {
        return Err(2);
    }
    if a.is_outside() || b.is_outside() || places < 8192 {
        return Err(18);
    }
    let mut both: BTreeMap<u64, Vec<u64>> = BTreeMap::new();
    for list in [a, b] {
        for (slot, value) in list.slots.iter().zip(&list.values) {
            both.entry(*slot).or_default().push(*value);
        }
    }
    let (first, last) = (both.keys().next(), both.keys().last());
    if first.zip(last).is_some_and(|(first, last)| last - first >= both.len() as u64) {
        return Err(19);
    }
    if both.values().any(|values| values.iter().any(|value| *value != values[0])) {
        return Err(20);
    }
    Ok(both.into_iter().map(|(slot, values)| (slot, values[0])).collect())
}

fn mark(place: usize) -> u64 {
    1_000_000_007 * (place as u64 + 1)
}

/// The places with their marks, and a call on the first of them.
struct Places {
    slots: Vec<u64>,
    values: Vec<u64>,
}

impl Places {
    fn marked() -> Places {
        let slots: Vec<u64> = (0..JOIN_PLACES + 2).map(mark).collect();
        let values = slots.iter().map(|n| n + 1).collect();
        Places { slots, values }
    }

    /// Joins, compares with the model, and puts the marks back.
    fn agrees(&mut self, a: &List, b: &List, slot_places: usize, value_places: usize) -> Result<usize, ListRefusal> {
        let answer = join_into(a.entries(), b.entries(), &mut self.slots[..slot_places], &mut self.values[..value_places]);
        let expected = model(a, b, slot_places.min(value_places));
        assert_eq!(answer.map_err(ListRefusal::number), expected.as_ref().map(Vec::len).map_err(|number| *number), "{a:?} {b:?}");
        let entries = expected.unwrap_or_default();
        for (place, (slot, value)) in entries.iter().enumerate() {
            assert_eq!((self.slots[place], self.values[place]), (*slot, *value));
            self.slots[place] = mark(place);
            self.values[place] = mark(place) + 1;
        }
        answer
    }

    fn are_marked(&self) -> bool {
        (0..JOIN_PLACES + 2).all(|place| self.slots[place] == mark(place) && self.values[place] == mark(place) + 1)
    }
}

/// xorshift
struct Chosen(u64);

impl Chosen {
    fn below(&mut self, n: u64) -> u64 {
        self.0 ^= self.0 << 13;
        self.0 ^= self.0 >> 7;
        self.0 ^= self.0 << 17;
        self.0 % n
    }

    /// A list near the slot, of one group, now and then with something wrong.
    fn list(&mut self, near: u64) -> List {
        let begin = near + self.below(16);
        let count = self.below(12);
        let mut list = agreed(begin, count);
        if count > 0 {
            let place = self.below(count) as usize;
            match self.below(24) {
                0 => list.values[place] = LARGEST_VALUE,
                1 => list.values[place] = LARGEST_VALUE + 1 + self.below(3),
                2 => list.slots[place] = LAST_SLOT + 1 + self.below(3),
                3 => list.slots[place] += 1,
                4 => drop(list.slots.remove(place)),
                5 => drop(list.values.remove(place)),
                6 => list.values[place] += 1,
                7 => list.slots.swap(0, place),
                8 => list.values.push(0),
                _ => (),
            }
        }
        list
    }
}

#[test]
fn random_pairs_agree_with_the_model() {
    let mut chosen = Chosen(10);
    let mut places = Places::marked();
    let mut given: BTreeMap<Result<(), u64>, u32> = BTreeMap::new();
    for turn in 0..100_000u64 {
        let near = [0, 3, 1 << 32, LAST_SLOT - 30][(turn % 4) as usize];
        let (a, b) = (chosen.list(near), chosen.list(near));
        let lent = if turn % 16 == 0 { JOIN_PLACES - 1 + chosen.below(3) as usize } else { JOIN_PLACES };
        let answer = places.agrees(&a, &b, lent, JOIN_PLACES);
        *given.entry(answer.map(|_| ()).map_err(ListRefusal::number)).or_default() += 1;
        let swapped = places.agrees(&b, &a, lent, JOIN_PLACES);
        assert_eq!(swapped, answer);
        if turn % 64 == 0 {
            assert!(places.are_marked());
        }
    }
    assert!(places.are_marked());
    assert!(given.len() == 5 && given.values().all(|count| *count > 2_500), "{given:?}");
}

#[test]
fn long_lists_agree_with_the_model() {
    let mut places = Places::marked();
    let full = LIST_ENTRIES as u64;
    let begins = [0, 1, full - 1, full, full + 1, LAST_SLOT - full + 1, LAST_SLOT - 2 * full + 1, LAST_SLOT - 2 * full];
    for (a, b) in begins.into_iter().flat_map(|a| begins.map(|b| (a, b))) {
        for (few, more) in [(full, full), (full, full + 1), (full + 1, full), (full, 1), (full - 1, 2), (full, 0)] {
            let fits = |begin: u64, count: u64| begin + count <= LAST_SLOT + 1;
            if !fits(a, few) || !fits(b, more) {
                continue;
            }
            let (one, other) = (agreed(a, few), agreed(b, more));
            for lent in [JOIN_PLACES - 1, JOIN_PLACES, JOIN_PLACES + 1] {
                let _ = places.agrees(&one, &other, lent, JOIN_PLACES + 2);
                let _ = places.agrees(&one, &other, JOIN_PLACES, lent);
            }
            for place in [0, few as usize - 1] {
                let mut changed = one.clone();
                changed.values[place] += 1;
                let _ = places.agrees(&changed, &other, JOIN_PLACES, JOIN_PLACES);
                changed.values[place] = LARGEST_VALUE + 1;
                let _ = places.agrees(&changed, &other, JOIN_PLACES, JOIN_PLACES);
                changed.slots[place] = LAST_SLOT + 1;
                let _ = places.agrees(&other, &changed, JOIN_PLACES, JOIN_PLACES);
            }
            assert!(places.are_marked());
        }
    }
}

#[test]
fn an_empty_list_gives_the_other() {
    let list: CommitList = agreed(70, 4).slots.into_iter().map(|slot| (slot, value_of(slot))).collect();
    let empty = CommitList::default();
    assert_eq!(list.join(&empty), Ok(list.clone()));
    assert_eq!(empty.join(&list), Ok(list));
    assert_eq!(empty.join(&empty), Ok(CommitList::default()));
}

/// From slot 40 on widths are in whole MHz.
fn group() -> GroupSettings {
    GroupSettings::new(Settings::all_live(3, 0, PFModeSetting::Paxos), 40)
}

/// What a value says, with cell numbers on both sides of 2^16 and at the largest: assignments, some of them refused, and releases.
fn says(value: u64) -> (CellNumber, Change) {
    let cell = [7, 65_535, 65_536, 65_543, CellNumber::MAX][(value % 5) as usize];
    let assignment = Assignment { carrier: value.wrapping_mul(7_919) % 3_400_000, width: value % 11 * 500 };
    (cell, if value % 3 == 0 { Change::Release } else { Change::Assign(assignment) })
}

#[test]
fn a_list_is_fed_as_its_entries_one_by_one() {
    let mut chosen = Chosen(11);
    let mut given: BTreeMap<Result<bool, u64>, u32> = BTreeMap::new();
    let (mut fed, mut applied) = (Register::new(&group()), Register::new(&group()));
    for turn in 0..20_000u64 {
        if turn % 50 == 0 {
            (fed, applied) = (Register::new(&group()), Register::new(&group()));
        }
        let next = fed.next_slot().expect("made");
        let begin = (next + chosen.below(8)).saturating_sub(6);
        let mut entries: Vec<(u64, u64)> = (begin..begin + chosen.below(12)).map(|slot| (slot, value_of(slot) + turn / 50)).collect();
        if let (Some(last), 0) = (entries.last_mut(), chosen.below(16)) {
            *last = [(last.0 + 1, 5), (LAST_SLOT + 1, 5), (last.0, LARGEST_VALUE + 1)][(turn % 3) as usize];
        }
        let gap = entries.first().is_some_and(|(first, _)| *first > next);
        let expected = if entries.iter().any(|(slot, value)| *slot > LAST_SLOT || *value > LARGEST_VALUE) {
            Err(2)
        } else if entries.windows(2).any(|pair| pair[0].0 + 1 != pair[1].0) {
            Err(18)
        } else if gap {
            Err(19)
        } else {
            let one_by_one = entries.iter().map(|(slot, value)| {
                let (cell, change) = says(*value);
                (*slot, applied.apply(&CellEntry { slot: *slot, cell, change }))
            });
            let refused: Vec<_> = one_by_one.filter_map(|(slot, answer)| answer.err().map(|why| (slot, why))).collect();
            Ok(refused.first().copied())
        };
        let answer = fed.feed(&entries.into_iter().collect(), says).map_err(ListRefusal::number);
        assert_eq!(answer, expected);
        assert_eq!(fed, applied);
        *given.entry(answer.map(|first| first.is_some())).or_default() += 1;
    }
    assert!(given.len() == 5 && given.values().all(|count| *count > 100), "{given:?}");
}

#[test]
fn no_more_than_8192_entries_are_fed() {
    let list = |count: u64| -> CommitList { (0..count).map(|slot| (slot, slot)).collect() };
    let mut register = Register::new(&group());
    assert_eq!(register.feed(&list(8193), says), Err(ListRefusal::OutsideLimits));
    assert_eq!(register, Register::new(&group()));
    assert!(register.feed(&list(8192), says).is_ok());
    assert_eq!(register.next_slot(), Ok(8192));
    assert_eq!(register.feed(&CommitList::default(), says), Ok(None));
}
