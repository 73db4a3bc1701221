//! Lists of commits, joined and fed to a register: an office that was off the network catches up from its neighbours' lists.
use crate::planning_sys::{FlatRegister, chanbook_feed, chanbook_join, chanbook_placed_feed};
use crate::reach::{PlacedRegister, Refused, Said};
use crate::register::{CellNumber, Change, EntryRefusal, Register};
use std::fmt;

/// How many entries a list may have that is joined to another.
pub const LIST_ENTRIES: usize = 4096;

/// How many places must be lent for a join.
pub const JOIN_PLACES: usize = 8192;

/// Why two lists are not joined, or a list is not fed. The first of these that holds is given.
#[derive(Clone, Copy, Debug, PartialEq, Eq, PartialOrd, Ord, Hash)]
pub enum ListRefusal {
    /// The settings that the register was begun from are outside their limits. No join gives it.
    Unmade,
    /// A window of those settings is not in the calendar. No join gives it.
    NotInCalendar,
    /// A slot is above 2^63−2, or a value above 2^63−1.
    NumberTooLarge,
    /// A list has more than 4,096 entries (8,192 where it is fed), its slots are not consecutive, it has another number of values than of slots, or fewer
    /// than 8,192 places are lent.
    OutsideLimits,
    /// There is a gap between the lists, or between the register and the list.
    Gap,
    /// One slot has two values.
    TwoValues,
}

impl ListRefusal {
    /// Document 02's number.
    pub fn number(self) -> u64 {
        match self {
            ListRefusal::Unmade => 1,
            ListRefusal::NotInCalendar => 17,
            ListRefusal::NumberTooLarge => 2,
            ListRefusal::OutsideLimits => 18,
            ListRefusal::Gap => 19,
            ListRefusal::TwoValues => 20,
        }
    }

    fn of(number: u64) -> ListRefusal {
        match number {
            1 => ListRefusal::Unmade,
            17 => ListRefusal::NotInCalendar,
            2 => ListRefusal::NumberTooLarge,
            18 => ListRefusal::OutsideLimits,
            19 => ListRefusal::Gap,
            20 => ListRefusal::TwoValues,
            _ => unreachable!("the library gave {number}"),
        }
    }
}

impl fmt::Display for ListRefusal {
    fn fmt(&self, f: &mut fmt::Formatter) -> fmt::Result {
        let why = match self {
            ListRefusal::Unmade => "the settings of the group are outside their limits",
            ListRefusal::NotInCalendar => "a window of the group is not in the calendar",
            ListRefusal::NumberTooLarge => "a number is too large",
            ListRefusal::OutsideLimits => "a list is outside its limits, or too few places are lent",
            ListRefusal::Gap => "a gap before a list",
            ListRefusal::TwoValues => "one slot with two values",
        };
        write!(f, "{why} ({})", self.number())
    }
}

impl std::error::Error for ListRefusal {}

/// A list as slices: its slots, and the value of each.
#[derive(Clone, Copy, Debug, PartialEq, Eq)]
pub struct Entries<'a> {
    /// Consecutive slots.
    pub slots: &'a [u64],
    /// As many values.
    pub values: &'a [u64],
}

/// Joins two lists into lent places, at least [`JOIN_PLACES`] for slots and for values, and hands back how many entries stand in the first of them. The
/// places behind the result, and all places after a refusal, are unchanged.
pub fn join_into(a: Entries, b: Entries, slots: &mut [u64], values: &mut [u64]) -> Result<usize, ListRefusal> {
    // SAFETY: each pointer stands with the number of elements that may be read behind it or, for the last two, also written; the slices live through the call.
    let answer = unsafe {
        chanbook_join(
            a.slots.as_ptr(),
            a.slots.len(),
            a.values.as_ptr(),
            a.values.len(),
            b.slots.as_ptr(),
            b.slots.len(),
            b.values.as_ptr(),
            b.values.len(),
            slots.as_mut_ptr(),
            slots.len(),
            values.as_mut_ptr(),
            values.len(),
        )
    };
    if answer.refusal == 0 { Ok(answer.value as usize) } else { Err(ListRefusal::of(answer.refusal)) }
}

/// A list of slots with values.
///
/// ```
/// use chanbook_shard::catch_up::{CommitList, ListRefusal};
/// let ours: CommitList = [(5, 50), (6, 60)].into_iter().collect();
/// let theirs: CommitList = [(6, 60), (7, 70)].into_iter().collect();
/// let both = ours.join(&theirs).unwrap();
/// assert_eq!(both.entries().collect::<Vec<_>>(), [(5, 50), (6, 60), (7, 70)]);
/// assert_eq!(theirs.join(&ours), Ok(both));
/// assert_eq!(ours.join(&[(8, 80)].into_iter().collect()), Err(ListRefusal::Gap));
/// assert_eq!(ours.join(&[(6, 61)].into_iter().collect()).unwrap_err().number(), 20);
/// ```
#[derive(Clone, Debug, Default, PartialEq, Eq)]
pub struct CommitList {
    slots: Vec<u64>,
    values: Vec<u64>,
}

impl CommitList {
    /// The list as slices.
    pub fn as_entries(&self) -> Entries<'_> {
        Entries { slots: &self.slots, values: &self.values }
    }

    /// Each slot with its value.
    pub fn entries(&self) -> impl Iterator<Item = (u64, u64)> + '_ {
        self.slots.iter().copied().zip(self.values.iter().copied())
    }

    /// One entry more, behind the others.
    pub fn push(&mut self, slot: u64, value: u64) {
        self.slots.push(slot);
        self.values.push(value);
    }

    /// How many entries it has.
    pub fn len(&self) -> usize {
        self.slots.len()
    }

    /// Whether it has none.
    pub fn is_empty(&self) -> bool {
        self.slots.is_empty()
    }

    /// The list that holds every entry of both and no other.
    pub fn join(&self, other: &CommitList) -> Result<CommitList, ListRefusal> {
        let mut both = CommitList { slots: vec![0; JOIN_PLACES], values: vec![0; JOIN_PLACES] };
        let count = join_into(self.as_entries(), other.as_entries(), &mut both.slots, &mut both.values)?;
        both.slots.truncate(count);
        both.values.truncate(count);
        Ok(both)
    }
}

/// What a list that was fed gave: the first entry that was refused, its slot and why.
pub type FirstRefused = Option<(u64, EntryRefusal)>;

impl Register {
    /// Feeds a list, with the cell and the change that the host makes of each value: each entry from [`next_slot`](Register::next_slot) on is taken as
    /// [`apply`](Register::apply) takes it, also those behind a refused one, and what lies before that slot is not. Gives the first entry that was refused, if
    /// any. A list that is refused is not fed at all. `says` is asked for every value of the list, once and in order, also where nothing is fed of it.
    ///
    /// ```
    /// use chanbook_shard::catch_up::{CommitList, ListRefusal};
    /// use chanbook_shard::register::{Assignment, CellEntry, Change, EntryRefusal, Register};
    /// use chanbook_shard::{GroupSettings, LAST_SLOT, PFModeSetting, Settings};
    /// let group = GroupSettings::new(Settings::all_live(3, 0, PFModeSetting::Paxos), LAST_SLOT);
    /// // Value v stands for an assignment of cell v, and the values from 100 on for releases.
    /// let says = |value: u64| match value as u32 {
    ///     cell @ 0..100 => (cell, Change::Assign(Assignment { carrier: 632_628, width: 20_000 })),
    ///     cell => (cell - 100, Change::Release),
    /// };
    /// let entry = |slot, value| CellEntry { slot, cell: says(value).0, change: says(value).1 };
    /// let mut present = Register::new(&group);
    /// let log = [(0, 7), (1, 8), (2, 107), (3, 109), (4, 9)];
    /// for (slot, value) in log {
    ///     let _ = present.apply(&entry(slot, value));
    /// }
    ///
    /// // An office that was away after slot 0 joins two neighbours' lists and feeds the join.
    /// let mut away = Register::new(&group);
    /// away.apply(&entry(0, 7)).unwrap();
    /// let (early, late): (CommitList, CommitList) = (log[..3].iter().copied().collect(), log[2..].iter().copied().collect());
    /// assert_eq!(away.feed(&late, says), Err(ListRefusal::Gap));
    /// assert_eq!(away.feed(&early.join(&late).unwrap(), says), Ok(Some((3, EntryRefusal::CellNotLive))));
    /// assert_eq!(away, present);
    /// ```
    pub fn feed(&mut self, list: &CommitList, says: impl Fn(u64) -> (CellNumber, Change)) -> Result<FirstRefused, ListRefusal> {
        let (mut kinds, mut numbers, mut entry_carriers, mut entry_widths) = (vec![], vec![], vec![], vec![]);
        for value in &list.values {
            let (cell, change) = says(*value);
            let (kind, assignment) = change.in_numbers();
            kinds.push(kind);
            numbers.push(cell);
            entry_carriers.push(assignment.carrier);
            entry_widths.push(assignment.width);
        }
        let FlatRegister { settings, cells, carriers, widths, figures } = self.flat_mut();
        // SAFETY: each pointer stands with the number of elements that may be read behind it; the vectors live through the call.
        let answer = unsafe {
            chanbook_feed(
                settings,
                cells,
                carriers,
                widths,
                figures,
                list.slots.as_ptr(),
                list.slots.len(),
                list.values.as_ptr(),
                list.values.len(),
                kinds.as_ptr(),
                kinds.len(),
                numbers.as_ptr(),
                numbers.len(),
                entry_carriers.as_ptr(),
                entry_carriers.len(),
                entry_widths.as_ptr(),
                entry_widths.len(),
            )
        };
        match (answer.refusal, answer.number) {
            (0, 0) => Ok(None),
            (0, number) => Ok(Some((answer.slot, EntryRefusal::from_number(number).expect("a number of E6")))),
            (refusal, _) => Err(ListRefusal::of(refusal)),
        }
    }
}

impl PlacedRegister {
    /// Feeds a list as [`Register::feed`] does, with positions among what the host makes of the values: each entry is taken as
    /// [`apply`](PlacedRegister::apply) takes it, so that positions stay beside their cells.
    ///
    /// ```
    /// use chanbook_shard::catch_up::CommitList;
    /// use chanbook_shard::reach::{PlacedRegister, Position, Said};
    /// use chanbook_shard::register::{Assignment, Change};
    /// use chanbook_shard::{GroupSettings, LAST_SLOT, PFModeSetting, Settings};
    /// let mut register = PlacedRegister::new(&GroupSettings::new(Settings::all_live(3, 0, PFModeSetting::Paxos), LAST_SLOT));
    /// // Values below 100 stand for an assignment of the cell, and the others for a position of it.
    /// let says = |value: u64| match value {
    ///     0..100 => (value as u32, Said::Change(Change::Assign(Assignment { carrier: 632_628, width: 20_000 }))),
    ///     _ => ((value % 100) as u32, Said::Position(Position { x: value as i64, y: -5 })),
    /// };
    /// let list: CommitList = [(0, 8), (1, 108), (2, 7), (3, 109), (4, 207)].into_iter().collect();
    /// let first = register.feed(&list, says).unwrap().map(|(slot, why)| (slot, why.number()));
    /// assert_eq!(first, Some((3, 16)));
    /// let places: Vec<_> = register.cells().unwrap().map(|cell| (cell.number, cell.position.unwrap().x)).collect();
    /// assert_eq!(places, [(7, 207), (8, 108)]);
    /// ```
    pub fn feed(&mut self, list: &CommitList, says: impl Fn(u64) -> (CellNumber, Said)) -> Result<Option<(u64, Refused)>, ListRefusal> {
        let (mut kinds, mut numbers, mut entry_carriers, mut entry_widths) = (vec![], vec![], vec![], vec![]);
        let (mut xs, mut ys) = (vec![], vec![]);
        for value in &list.values {
            let (cell, said) = says(*value);
            let (kind, assignment, position) = said.in_numbers();
            kinds.push(kind);
            numbers.push(cell);
            entry_carriers.push(assignment.carrier);
            entry_widths.push(assignment.width);
            xs.push(position.x);
            ys.push(position.y);
        }
        let (FlatRegister { settings, cells, carriers, widths, figures }, positions) = self.flat_mut();
        // SAFETY: each pointer stands with the number of elements that may be read behind it; the vectors live through the call.
        let answer = unsafe {
            chanbook_placed_feed(
                settings,
                cells,
                carriers,
                widths,
                figures,
                positions,
                list.slots.as_ptr(),
                list.slots.len(),
                list.values.as_ptr(),
                list.values.len(),
                kinds.as_ptr(),
                kinds.len(),
                numbers.as_ptr(),
                numbers.len(),
                entry_carriers.as_ptr(),
                entry_carriers.len(),
                entry_widths.as_ptr(),
                entry_widths.len(),
                xs.as_ptr(),
                xs.len(),
                ys.as_ptr(),
                ys.len(),
            )
        };
        match (answer.refusal, answer.number) {
            (0, 0) => Ok(None),
            (0, number) => Ok(Some((answer.slot, Refused(number)))),
            (refusal, _) => Err(ListRefusal::of(refusal)),
        }
    }
}

impl FromIterator<(u64, u64)> for CommitList {
    fn from_iter<I: IntoIterator<Item = (u64, u64)>>(entries: I) -> CommitList {
        let (slots, values) = entries.into_iter().unzip();
        CommitList { slots, values }
    }
}
