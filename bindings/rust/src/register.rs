//! A register of cells from the commits: which carrier and width each cell has, and how many assignments were made, superseded and released.
use crate::planning_sys::{self as sys, FlatRegister};
pub use crate::planning_sys::{CellNumber, FlatStoredRegister as StoredRegister};
use crate::settings::GroupSettings;
use std::fmt;

/// An assignment. An entry may have any numbers; those of a live cell are within the limits.
#[derive(Clone, Copy, Debug, PartialEq, Eq, PartialOrd, Ord, Hash)]
pub struct Assignment {
    /// A carrier number ([`Arfcn`](crate::raster::Arfcn) has its frequency), 0 to 3279165.
    pub carrier: u64,
    /// The width in kHz, 1 to 400,000.
    pub width: u64,
}

/// What an entry says of its cell.
#[derive(Clone, Copy, Debug, PartialEq, Eq, PartialOrd, Ord, Hash)]
pub enum Change {
    /// It has this assignment from now on.
    Assign(Assignment),
    /// It is live no more.
    Release,
}

impl Change {
    /// The kind of an entry, and its carrier and width.
    pub(crate) fn in_numbers(self) -> (u64, Assignment) {
        match self {
            Change::Assign(assignment) => (sys::ASSIGNMENT, assignment),
            Change::Release => (sys::RELEASE, Assignment { carrier: 0, width: 0 }),
        }
    }
}

/// What a slot's commit says of a cell.
#[derive(Clone, Copy, Debug, PartialEq, Eq, PartialOrd, Ord, Hash)]
pub struct CellEntry {
    /// The slot of the commit.
    pub slot: u64,
    /// The cell.
    pub cell: CellNumber,
    /// What becomes of it.
    pub change: Change,
}

/// A live cell.
#[derive(Clone, Copy, Debug, PartialEq, Eq, PartialOrd, Ord, Hash)]
pub struct Cell {
    /// Its number.
    pub number: CellNumber,
    /// Its carrier and width.
    pub assignment: Assignment,
}

/// What the report prints: counts over all entries so far. Those made are the other three together.
#[derive(Clone, Copy, Debug, PartialEq, Eq, Hash)]
pub struct Figures {
    /// Assignments that were done.
    pub made: u64,
    /// Assignments that a later one of their cell took the place of.
    pub superseded: u64,
    /// Assignments that a release ended.
    pub released: u64,
    /// Live cells.
    pub live: u64,
}

/// What became of an entry that was not refused.
#[derive(Clone, Copy, Debug, PartialEq, Eq, Hash)]
pub enum Applied {
    /// It was done.
    Done,
    /// Its slot is not after the last one seen: it was passed over, and nothing has changed.
    Older,
}

/// Why an entry is refused. A refused entry counts nowhere and changes no cell. Its slot is seen, but not after [`NumberTooLarge`](Self::NumberTooLarge),
/// [`Unmade`](Self::Unmade) and [`NotInCalendar`](Self::NotInCalendar).
///
/// ```
/// use chanbook_shard::register::EntryRefusal;
/// assert_eq!(EntryRefusal::NoRoomForCell.number(), 15);
/// assert_eq!(EntryRefusal::from_number(16), Some(EntryRefusal::CellNotLive));
/// assert_eq!(EntryRefusal::from_number(64), None);
/// ```
#[derive(Clone, Copy, Debug, PartialEq, Eq, PartialOrd, Ord, Hash)]
#[repr(u8)]
pub enum EntryRefusal {
    /// The settings that the register was begun from are outside their limits: every entry is refused so.
    Unmade = 1,
    /// A window of the settings has a date or a time that there is not, or an end that is not after its start: every entry is refused so.
    NotInCalendar = 17,
    /// The slot is above 2^63−2.
    NumberTooLarge = 2,
    /// The carrier is no raster number, or the width is outside its limits.
    NotAssignable = 14,
    /// The width is not in whole MHz, at or after the slot from which it must be.
    OddWidth = 23,
    /// A new cell, with 512 live.
    NoRoomForCell = 15,
    /// The release of a cell that is not live.
    CellNotLive = 16,
}

impl EntryRefusal {
    /// All of them, in the order in which they are looked for.
    pub const ALL: [EntryRefusal; 7] = [
        EntryRefusal::Unmade,
        EntryRefusal::NotInCalendar,
        EntryRefusal::NumberTooLarge,
        EntryRefusal::NotAssignable,
        EntryRefusal::OddWidth,
        EntryRefusal::NoRoomForCell,
        EntryRefusal::CellNotLive,
    ];

    /// The number by which document 02 names it.
    pub fn number(self) -> u64 {
        self as u64
    }

    /// The refusal with this number.
    pub fn from_number(number: u64) -> Option<EntryRefusal> {
        EntryRefusal::ALL.into_iter().find(|refusal| refusal.number() == number)
    }
}

impl fmt::Display for EntryRefusal {
    fn fmt(&self, f: &mut fmt::Formatter<'_>) -> fmt::Result {
        let why = match self {
            EntryRefusal::Unmade => "the settings of the group are outside their limits",
            EntryRefusal::NotInCalendar => "a window of the group is not in the calendar",
            EntryRefusal::NumberTooLarge => "the slot is above 2^63-2",
            EntryRefusal::NotAssignable => "no raster number, or a width outside its limits",
            EntryRefusal::OddWidth => "a width not in whole MHz at or after the slot from which it must be",
            EntryRefusal::NoRoomForCell => "a new cell with 512 live",
            EntryRefusal::CellNotLive => "release of a cell that is not live",
        };
        write!(f, "refused, {}: {why}", self.number())
    }
}

impl std::error::Error for EntryRefusal {}

/// A register of at most 512 live cells. It owns its memory and lends it to the library for each entry.
///
/// A host gives the entries in slot order, each once its slot is committed: one that comes behind an entry of a later slot is older, and passed over for good.
/// Registers that were given equal entries in slot order are equal, whatever repeats and older entries stood between. So the hosts of a group make the
/// same entry of a committed value and name the same slot of whole MHz, and their registers are equal at equal slots.
///
/// ```
/// use chanbook_shard::register::{Applied, Assignment, CellEntry, Change, EntryRefusal, Register};
/// use chanbook_shard::{GroupSettings, PFModeSetting, Settings};
/// // From slot 6 on widths are in whole MHz.
/// let mut register = Register::new(&GroupSettings::new(Settings::all_live(3, 0, PFModeSetting::Paxos), 6));
/// let mut entry = |slot, cell, change| register.apply(&CellEntry { slot, cell, change });
/// let assign = |carrier, width| Change::Assign(Assignment { carrier, width });
///
/// assert_eq!(entry(0, 7, assign(632_628, 20_000)), Ok(Applied::Done));
/// assert_eq!(entry(1, 9, assign(636_666, 40_000)), Ok(Applied::Done));
/// assert_eq!(entry(3, 7, assign(641_280, 20_000)), Ok(Applied::Done));
/// // The same slot again, and one before it, do nothing.
/// assert_eq!(entry(3, 9, Change::Release), Ok(Applied::Older));
/// assert_eq!(entry(2, 9, Change::Release), Ok(Applied::Older));
/// // A refused entry counts nowhere, and its slot is seen.
/// assert_eq!(entry(4, 8, Change::Release), Err(EntryRefusal::CellNotLive));
/// assert_eq!(entry(5, 9, assign(632_628, 400_001)).unwrap_err().number(), 14);
/// assert_eq!(entry(6, 9, assign(632_628, 1_500)), Err(EntryRefusal::OddWidth));
/// assert_eq!(register.next_slot(), Ok(7));
///
/// let live: Vec<_> = register.cells()?.map(|cell| (cell.number, cell.assignment.carrier)).collect();
/// assert_eq!(live, [(7, 641_280), (9, 636_666)]);
/// assert_eq!(register.report(), "made,superseded,released,live\r\n3,1,0,2\r\n");
/// # Ok::<(), EntryRefusal>(())
/// ```
#[derive(Clone, Debug, PartialEq, Eq)]
pub struct Register {
    flat: Box<FlatRegister>,
}

impl Register {
    /// A register of the settings of its group that has seen no entry. Of settings outside their limits it is not made, and refuses every call with their
    /// number, 1, or 17 of a window: an entry, a list, its cells, figures and next slot; its report is the line `refused,1` or `refused,17`.
    pub fn new(group: &GroupSettings) -> Register {
        let mut flat = Box::new(FlatRegister { cells: [0; 512], carriers: [0; 512], widths: [0; 512], figures: [0; 5], settings: [0; 2] });
        let FlatRegister { settings, cells, carriers, widths, figures } = &mut *flat;
        sys::chanbook_register_new(group.into(), settings, cells, carriers, widths, figures);
        Register { flat }
    }

    /// Whether it is made; else [`Unmade`](EntryRefusal::Unmade) or [`NotInCalendar`](EntryRefusal::NotInCalendar).
    pub fn made(&self) -> Result<(), EntryRefusal> {
        match self.flat.settings[sys::SETTINGS_NUMBER] {
            0 => Ok(()),
            17 => Err(EntryRefusal::NotInCalendar),
            _ => Err(EntryRefusal::Unmade),
        }
    }

    /// An entry. What is not done changes no cell and no figure.
    pub fn apply(&mut self, entry: &CellEntry) -> Result<Applied, EntryRefusal> {
        let (kind, Assignment { carrier, width }) = entry.change.in_numbers();
        let FlatRegister { settings, cells, carriers, widths, figures } = &mut *self.flat;
        match sys::chanbook_register_entry(settings, cells, carriers, widths, figures, entry.slot, kind, entry.cell, carrier, width) {
            sys::DONE => Ok(Applied::Done),
            sys::OLDER => Ok(Applied::Older),
            number => Err(EntryRefusal::from_number(number).expect("a number of E6 or E13")),
        }
    }

    /// The live cells, by number. In a damaged register a number that no cell can have is left out.
    pub fn cells(&self) -> Result<impl Iterator<Item = Cell>, EntryRefusal> {
        let live = self.figures()?.live as usize;
        let FlatRegister { cells, carriers, widths, .. } = &*self.flat;
        let cell = |place: usize| {
            let assignment = Assignment { carrier: carriers[place], width: widths[place] };
            CellNumber::try_from(cells[place]).ok().map(|number| Cell { number, assignment })
        };
        Ok((0..live).filter_map(cell))
    }

    /// The slot after the last one seen, at first 0. Entries of the slots before it are older.
    pub fn next_slot(&self) -> Result<u64, EntryRefusal> {
        self.made()?;
        Ok(self.flat.figures[sys::NEXT_SLOT])
    }

    /// What the report prints.
    pub fn figures(&self) -> Result<Figures, EntryRefusal> {
        self.made()?;
        let figures = &self.flat.figures;
        Ok(Figures {
            made: figures[sys::MADE],
            superseded: figures[sys::SUPERSEDED],
            released: figures[sys::RELEASED],
            live: figures[sys::LIVE].min(512),
        })
    }

    /// The report over all entries so far, as CSV: a header and one line, each ended with CR LF. Of a register that is not made it is the one line `refused,1`
    /// or `refused,17`.
    pub fn report(&self) -> String {
        let mut bytes = [0; 116];
        let length = sys::chanbook_register_report(&self.flat.settings, &self.flat.figures, &mut bytes);
        bytes[..length as usize].iter().map(|byte| char::from(*byte)).collect()
    }

    /// The numbers of the register, for a host that puts it aside.
    pub fn flat(&self) -> &FlatRegister {
        &self.flat
    }

    pub(crate) fn flat_mut(&mut self) -> &mut FlatRegister {
        &mut self.flat
    }

    /// A register that was put aside. Whatever numbers it has, each entry gets an answer; what is proved of figures and cells is proved of a
    /// register that goes from one entry to the next unchanged. A host that stored the four arrays of E6 puts them in the place of those of a new register,
    /// whose settings stay.
    ///
    /// ```
    /// use chanbook_shard::register::Register;
    /// use chanbook_shard::{GroupSettings, LAST_SLOT, PFModeSetting, Settings};
    /// let register = Register::new(&GroupSettings::new(Settings::all_live(3, 0, PFModeSetting::Paxos), LAST_SLOT));
    /// let aside = *register.flat();
    /// assert_eq!(Register::from_flat(Box::new(aside)), register);
    /// ```
    pub fn from_flat(flat: Box<FlatRegister>) -> Register {
        Register { flat }
    }

    /// A register that was stored while cell numbers had 16 bits. Each cell keeps its number and its assignment, the report is the same, and new entries
    /// go on where the stored ones ended. The slot of whole MHz is that of the settings it is read with; odd widths that stand in it stay. It is equal (`==`)
    /// to another office's where all 512 places were stored; what stands behind the live cells changes no answer, but is compared.
    ///
    /// ```
    /// use chanbook_shard::register::{Applied, Assignment, CellEntry, Change, Register, StoredRegister};
    /// use chanbook_shard::{GroupSettings, LAST_SLOT, PFModeSetting, Settings};
    /// let group = GroupSettings::new(Settings::all_live(3, 0, PFModeSetting::Paxos), LAST_SLOT);
    /// let mut stored = StoredRegister { cells: [0; 512], carriers: [0; 512], widths: [0; 512], figures: [9, 3, 1, 1, 1] };
    /// (stored.cells[0], stored.carriers[0], stored.widths[0]) = (65_535, 632_628, 20_000);
    ///
    /// let mut register = Register::from_stored(&stored, &group);
    /// assert_eq!(register.report(), "made,superseded,released,live\r\n3,1,1,1\r\n");
    /// let change = Change::Assign(Assignment { carrier: 636_666, width: 40_000 });
    /// assert_eq!(register.apply(&CellEntry { slot: 8, cell: 65_536, change }), Ok(Applied::Older));
    /// assert_eq!(register.apply(&CellEntry { slot: 9, cell: 65_536, change }), Ok(Applied::Done));
    /// assert_eq!(register.cells()?.map(|cell| cell.number).collect::<Vec<_>>(), [65_535, 65_536]);
    /// # Ok::<(), chanbook_shard::register::EntryRefusal>(())
    /// ```
    pub fn from_stored(stored: &StoredRegister, group: &GroupSettings) -> Register {
        let mut register = Register::new(group);
        let FlatRegister { settings, cells, carriers, widths, figures } = &mut *register.flat;
        let StoredRegister { cells: numbers, carriers: stored_carriers, widths: stored_widths, figures: stored_figures } = stored;
        sys::chanbook_register_widened(
            group.into(),
            numbers,
            stored_carriers,
            stored_widths,
            stored_figures,
            settings,
            cells,
            carriers,
            widths,
            figures,
        );
        register
    }
}
