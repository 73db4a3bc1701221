//! Positions of the cells of a register, which cells a carrier conflicts with near a position, and which carrier is free there.
pub use crate::planning_sys::FlatPosition;
use crate::planning_sys::{self as sys, CellNumber, FlatRegister, FlatValue};
use crate::register::{Applied, Assignment, Change, Register};
use crate::settings::GroupSettings;
use std::fmt;
use std::ops::RangeInclusive;

/// A position on the national grid, in whole metres. A cell's is within 2,000,000 either way.
#[derive(Clone, Copy, Debug, PartialEq, Eq, PartialOrd, Ord, Hash)]
pub struct Position {
    /// East.
    pub x: i64,
    /// North.
    pub y: i64,
}

/// What a slot's commit says of a cell.
#[derive(Clone, Copy, Debug, PartialEq, Eq)]
pub enum Said {
    /// An assignment, which keeps the cell's position, or a release, which drops it.
    Change(Change),
    /// The cell stands there.
    Position(Position),
}

impl Said {
    /// The kind of an entry, its carrier and width, and its position.
    pub(crate) fn in_numbers(self) -> (u64, Assignment, Position) {
        match self {
            Said::Change(change) => {
                let (kind, assignment) = change.in_numbers();
                (kind, assignment, Position { x: 0, y: 0 })
            }
            Said::Position(position) => (sys::POSITION, Assignment { carrier: 0, width: 0 }, position),
        }
    }
}

/// An entry of a register with positions.
#[derive(Clone, Copy, Debug, PartialEq, Eq)]
pub struct PlacedEntry {
    /// The commit's slot.
    pub slot: u64,
    /// The cell.
    pub cell: CellNumber,
    /// What is said of it.
    pub said: Said,
}

/// A live cell.
#[derive(Clone, Copy, Debug, PartialEq, Eq)]
pub struct PlacedCell {
    /// Its number. In a damaged register it may have more than 32 bits.
    pub number: u64,
    /// Its carrier and width.
    pub assignment: Assignment,
    /// Where it stands, if that is known.
    pub position: Option<Position>,
}

/// What is asked besides carriers: a width in kHz, a position, and a distance in metres.
#[derive(Clone, Copy, Debug, PartialEq, Eq)]
pub struct Question {
    /// 1 to 400,000 kHz.
    pub width: u64,
    /// Within 2,000,000 either way.
    pub position: Position,
    /// 0 to 6,000,000 metres; a cell exactly so far away is near.
    pub distance: u64,
}

/// Document 02's number of what refuses an entry or a question.
#[derive(Clone, Copy, Debug, PartialEq, Eq, PartialOrd, Ord, Hash)]
pub struct Refused(pub(crate) u64);

impl Refused {
    /// The number.
    pub fn number(self) -> u64 {
        self.0
    }
}

impl fmt::Display for Refused {
    fn fmt(&self, f: &mut fmt::Formatter) -> fmt::Result {
        let why = match self.0 {
            1 => "the register is not made",
            2 => "the slot is above 2^63-2",
            14 => "no raster number, or a width outside its limits",
            15 => "a new cell with 512 live",
            16 => "the cell is not live",
            17 => "the register is not made: a window of its settings is not in the calendar",
            21 => "a position or a distance outside its limits",
            22 => "no carrier in the range is free",
            23 => "a width that is not in whole MHz",
            _ => "a number that document 02 does not have",
        };
        write!(f, "refused, {}: {why}", self.0)
    }
}

impl std::error::Error for Refused {}

fn value(answer: FlatValue) -> Result<u64, Refused> {
    if answer.refusal == 0 { Ok(answer.value) } else { Err(Refused(answer.refusal)) }
}

/// The ends of a range, the last below the first where it is empty: one that was run to its end still has the ends of a range with carriers in it.
fn ends(range: &RangeInclusive<u64>) -> (u64, u64) {
    let (first, last) = (*range.start(), *range.end());
    if range.is_empty() && first <= last {
        let after = first.max(1);
        return (after, after - 1);
    }
    (first, last)
}

/// A register of at most 512 live cells, each with its position where it has one. It owns its memory and lends it to the library.
///
/// ```
/// use chanbook_shard::reach::{PlacedEntry, PlacedRegister, Position, Question, Said};
/// use chanbook_shard::register::{Assignment, Change};
/// use chanbook_shard::{GroupSettings, PFModeSetting, Settings};
/// let mut register = PlacedRegister::new(&GroupSettings::new(Settings::all_live(3, 0, PFModeSetting::Paxos), 0));
/// let mut entry = |slot, cell, said| register.apply(&PlacedEntry { slot, cell, said }).unwrap();
/// entry(0, 7, Said::Change(Change::Assign(Assignment { carrier: 632_000, width: 20_000 })));
/// entry(1, 7, Said::Position(Position { x: 300, y: -400 }));
///
/// let ask = |distance| Question { width: 20_000, position: Position { x: 0, y: 0 }, distance };
/// assert_eq!(register.conflicts(632_000, &ask(500)), Ok(vec![7]));
/// assert_eq!(register.conflicts(632_000, &ask(499)), Ok(vec![]));
/// // 632,000 is 3,480 MHz: 20 MHz above it the carriers only touch.
/// assert_eq!(register.first_free(631_000..=640_000, &ask(500)), Ok(633_334));
/// assert_eq!(register.first_free(631_000..=633_333, &ask(500)).unwrap_err().number(), 22);
/// ```
#[derive(Clone, Debug, PartialEq, Eq)]
pub struct PlacedRegister {
    register: Register,
    positions: Box<[FlatPosition; 512]>,
}

impl PlacedRegister {
    /// A register of the settings of a group that has seen no entry.
    pub fn new(group: &GroupSettings) -> PlacedRegister {
        PlacedRegister::without_positions(Register::new(group))
    }

    /// A register whose cells have no positions, as those of one that was stored.
    pub fn without_positions(register: Register) -> PlacedRegister {
        let mut positions = Box::new([FlatPosition::default(); 512]);
        sys::chanbook_positions_new(&mut positions);
        PlacedRegister { register, positions }
    }

    /// The positions of the register, place by place, for a host that puts it aside with [`register`](PlacedRegister::register)`().flat()`.
    pub fn flat_positions(&self) -> &[FlatPosition; 512] {
        &self.positions
    }

    /// A register that was put aside, with its positions.
    ///
    /// ```
    /// use chanbook_shard::reach::{PlacedEntry, PlacedRegister, Position, Said};
    /// use chanbook_shard::register::{Assignment, Change, Register};
    /// use chanbook_shard::{GroupSettings, PFModeSetting, Settings};
    /// let mut register = PlacedRegister::new(&GroupSettings::new(Settings::all_live(3, 0, PFModeSetting::Paxos), 0));
    /// let assigned = Said::Change(Change::Assign(Assignment { carrier: 632_000, width: 20_000 }));
    /// register.apply(&PlacedEntry { slot: 0, cell: 7, said: assigned }).unwrap();
    /// register.apply(&PlacedEntry { slot: 1, cell: 7, said: Said::Position(Position { x: 300, y: -400 }) }).unwrap();
    /// let aside = (*register.register().flat(), *register.flat_positions());
    /// assert_eq!(PlacedRegister::from_flat(Register::from_flat(Box::new(aside.0)), Box::new(aside.1)), register);
    /// ```
    pub fn from_flat(register: Register, positions: Box<[FlatPosition; 512]>) -> PlacedRegister {
        PlacedRegister { register, positions }
    }

    pub(crate) fn flat_mut(&mut self) -> (&mut FlatRegister, &mut [FlatPosition; 512]) {
        (self.register.flat_mut(), &mut self.positions)
    }

    /// An entry. What is not done changes no cell, no position and no figure.
    pub fn apply(&mut self, entry: &PlacedEntry) -> Result<Applied, Refused> {
        let (kind, assignment, position) = entry.said.in_numbers();
        let (FlatRegister { settings, cells, carriers, widths, figures }, positions) = self.flat_mut();
        let number = sys::chanbook_placed_entry(
            settings,
            cells,
            carriers,
            widths,
            figures,
            positions,
            entry.slot,
            kind,
            entry.cell,
            assignment.carrier,
            assignment.width,
            position.x,
            position.y,
        );
        match number {
            sys::DONE => Ok(Applied::Done),
            sys::OLDER => Ok(Applied::Older),
            number => Err(Refused(number)),
        }
    }

    /// The live cells, by number; refused with 1 where the register is not made.
    pub fn cells(&self) -> Result<impl Iterator<Item = PlacedCell>, Refused> {
        let live = self.register.figures().map_err(|why| Refused(why.number()))?.live as usize;
        let FlatRegister { cells, carriers, widths, .. } = self.register.flat();
        Ok((0..live).map(|place| {
            let FlatPosition { given, x, y } = self.positions[place];
            PlacedCell {
                number: cells[place],
                assignment: Assignment { carrier: carriers[place], width: widths[place] },
                position: (given != 0).then_some(Position { x, y }),
            }
        }))
    }

    /// The register without the positions: its figures, its next slot and its report.
    pub fn register(&self) -> &Register {
        &self.register
    }

    /// The numbers of the cells that overlap a carrier and are near, by number.
    pub fn conflicts(&self, carrier: u64, question: &Question) -> Result<Vec<u64>, Refused> {
        let mut numbers = [0; 512];
        let FlatRegister { settings, cells, carriers, widths, figures } = self.register.flat();
        let Question { width, position: Position { x, y }, distance } = *question;
        let answer = sys::chanbook_conflicts(
            settings,
            cells,
            carriers,
            widths,
            figures,
            &self.positions,
            carrier,
            width,
            x,
            y,
            distance,
            &mut numbers,
        );
        value(answer).map(|count| numbers[..count as usize].to_vec())
    }

    /// The lowest carrier of a range that conflicts with no cell. A range that was run to its end is empty, and so refused with 22.
    pub fn first_free(&self, range: RangeInclusive<u64>, question: &Question) -> Result<u64, Refused> {
        let (first, last) = ends(&range);
        let FlatRegister { settings, cells, carriers, widths, figures } = self.register.flat();
        let Question { width, position: Position { x, y }, distance } = *question;
        value(sys::chanbook_first_free(settings, cells, carriers, widths, figures, &self.positions, first, last, width, x, y, distance))
    }
}
