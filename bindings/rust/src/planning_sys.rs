//! The flat forms and functions of crates/planning_host, which stand beside the engine's ([`sys`](crate::sys)). Numbers go in and numbers come out, and
//! every function is total on every number.
//!
//! [`raster`](crate::raster), [`register`](crate::register), [`reach`](crate::reach), [`catch_up`](crate::catch_up) and [`windows`](crate::windows) are the
//! interface for a host.
#![allow(missing_docs)]
use crate::sys::{FlatDate, FlatGroupSettings};

/// The number of document 02 that refuses, with 0 as the value; or 0 and the value.
#[repr(C)]
#[derive(Clone, Copy, Debug, PartialEq, Eq, Default)]
pub struct FlatValue {
    pub refusal: u64,
    pub value: u64,
}

/// A cell's number in an entry.
pub type CellNumber = u32;

/// The five arrays of a register, which its functions are lent one by one: three columns, whose place i is live cell i, by cell number, the figures, and what
/// it keeps of the settings of its group. These stand last: the four arrays of a register that was stored before E13 are the beginning of this block.
#[repr(C)]
#[derive(Clone, Copy, Debug, PartialEq, Eq)]
pub struct FlatRegister {
    pub cells: [u64; 512],
    pub carriers: [u64; 512],
    pub widths: [u64; 512],
    pub figures: [u64; 5],
    pub settings: [u64; 2],
}

/// The numbers of a register that was stored while cell numbers had 16 bits.
#[repr(C)]
#[derive(Clone, Copy, Debug, PartialEq, Eq)]
pub struct FlatStoredRegister {
    pub cells: [u16; 512],
    pub carriers: [u64; 512],
    pub widths: [u64; 512],
    pub figures: [u64; 5],
}

/// The number of document 02 that refuses the list, with nothing fed; or 0, and the first slot that was refused with its number, both 0 where none was.
#[repr(C)]
#[derive(Clone, Copy, Debug, PartialEq, Eq, Default)]
pub struct FlatFed {
    pub refusal: u64,
    pub slot: u64,
    pub number: u64,
}

/// The position of a cell: none where `given` is 0, and else x and y, in metres.
#[repr(C)]
#[derive(Clone, Copy, Debug, PartialEq, Eq, Default)]
pub struct FlatPosition {
    pub given: u64,
    pub x: i64,
    pub y: i64,
}

/// A date, or the number of document 02 that refuses and zeros as the date.
#[repr(C)]
#[derive(Clone, Copy, Debug, PartialEq, Eq, Default)]
pub struct FlatDateAnswer {
    pub refusal: u64,
    pub date: FlatDate,
}

/// The three arrays of what is kept of windows, which the functions are lent one by one: the minutes in which each starts and ends, and the figures.
#[repr(C)]
#[derive(Clone, Copy, Debug, PartialEq, Eq)]
pub struct FlatKeptWindows {
    pub starts: [u64; 128],
    pub ends: [u64; 128],
    pub figures: [u64; 2],
}

/// [`INSIDE`], [`NEXT`] with the minute, [`NONE`], or the number of document 02 that refuses.
#[repr(C)]
#[derive(Clone, Copy, Debug, PartialEq, Eq, Default)]
pub struct FlatWindowAnswer {
    pub answer: u64,
    pub minute: u64,
}

/// The places of a register's figures.
pub const NEXT_SLOT: usize = 0;
pub const MADE: usize = 1;
pub const SUPERSEDED: usize = 2;
pub const RELEASED: usize = 3;
pub const LIVE: usize = 4;

/// The places of a register's settings.
pub const SETTINGS_NUMBER: usize = 0;
pub const WHOLE_MHZ_FROM: usize = 1;

/// The kinds of entry.
pub const ASSIGNMENT: u64 = 1;
pub const RELEASE: u64 = 2;
pub const POSITION: u64 = 3;

/// What became of an entry that is not refused: these numbers are not document 02's.
pub const DONE: u64 = 0;
pub const OLDER: u64 = 64;

/// What is said of a minute that is not refused: these numbers are not document 02's either.
pub const INSIDE: u64 = 65;
pub const NEXT: u64 = 66;
pub const NONE: u64 = 67;

/// The places of the figures of windows.
pub const WINDOWS_NUMBER: usize = 0;
pub const WINDOWS_COUNT: usize = 1;

unsafe extern "C" {
    /// The frequency of a carrier number, in kHz.
    pub safe fn chanbook_raster_khz(number: u64) -> FlatValue;

    /// The carrier number of a frequency in kHz.
    pub safe fn chanbook_raster_number(khz: u64) -> FlatValue;

    /// A register of the settings of its group that has seen no entry.
    pub safe fn chanbook_register_new(
        group: FlatGroupSettings,
        settings: &mut [u64; 2],
        cells: &mut [u64; 512],
        carriers: &mut [u64; 512],
        widths: &mut [u64; 512],
        figures: &mut [u64; 5],
    );

    /// An entry: [`DONE`], [`OLDER`], or the number of document 02 that refuses it.
    pub safe fn chanbook_register_entry(
        settings: &[u64; 2],
        cells: &mut [u64; 512],
        carriers: &mut [u64; 512],
        widths: &mut [u64; 512],
        figures: &mut [u64; 5],
        slot: u64,
        kind: u64,
        cell: CellNumber,
        carrier: u64,
        width: u64,
    ) -> u64;

    /// The report at the start of `out`, and how many bytes it has.
    pub safe fn chanbook_register_report(settings: &[u64; 2], figures: &[u64; 5], out: &mut [u8; 116]) -> u64;

    /// The stored register in the arrays of a register.
    pub safe fn chanbook_register_widened(
        group: FlatGroupSettings,
        stored_cells: &[u16; 512],
        stored_carriers: &[u64; 512],
        stored_widths: &[u64; 512],
        stored_figures: &[u64; 5],
        settings: &mut [u64; 2],
        cells: &mut [u64; 512],
        carriers: &mut [u64; 512],
        widths: &mut [u64; 512],
        figures: &mut [u64; 5],
    );

    /// Two lists joined into the lent places: a slice is a pointer and the number of its elements.
    pub fn chanbook_join(
        a_slots: *const u64,
        a_slot_count: usize,
        a_values: *const u64,
        a_value_count: usize,
        b_slots: *const u64,
        b_slot_count: usize,
        b_values: *const u64,
        b_value_count: usize,
        slots: *mut u64,
        slot_places: usize,
        values: *mut u64,
        value_places: usize,
    ) -> FlatValue;

    /// A list fed to a register, with the host's entry beside each value.
    pub fn chanbook_feed(
        settings: &[u64; 2],
        cells: &mut [u64; 512],
        carriers: &mut [u64; 512],
        widths: &mut [u64; 512],
        figures: &mut [u64; 5],
        slots: *const u64,
        slot_count: usize,
        values: *const u64,
        value_count: usize,
        kinds: *const u64,
        kind_count: usize,
        entry_cells: *const CellNumber,
        entry_cell_count: usize,
        entry_carriers: *const u64,
        entry_carrier_count: usize,
        entry_widths: *const u64,
        entry_width_count: usize,
    ) -> FlatFed;

    /// A list fed to a register with positions: beside [`chanbook_feed`]'s slices the x and the y of each entry.
    pub fn chanbook_placed_feed(
        settings: &[u64; 2],
        cells: &mut [u64; 512],
        carriers: &mut [u64; 512],
        widths: &mut [u64; 512],
        figures: &mut [u64; 5],
        positions: &mut [FlatPosition; 512],
        slots: *const u64,
        slot_count: usize,
        values: *const u64,
        value_count: usize,
        kinds: *const u64,
        kind_count: usize,
        entry_cells: *const CellNumber,
        entry_cell_count: usize,
        entry_carriers: *const u64,
        entry_carrier_count: usize,
        entry_widths: *const u64,
        entry_width_count: usize,
        entry_xs: *const i64,
        entry_x_count: usize,
        entry_ys: *const i64,
        entry_y_count: usize,
    ) -> FlatFed;

    /// No cell has a position.
    pub safe fn chanbook_positions_new(positions: &mut [FlatPosition; 512]);

    /// An entry of a register with positions: [`DONE`], [`OLDER`], or the number of document 02 that refuses it.
    pub safe fn chanbook_placed_entry(
        settings: &[u64; 2],
        cells: &mut [u64; 512],
        carriers: &mut [u64; 512],
        widths: &mut [u64; 512],
        figures: &mut [u64; 5],
        positions: &mut [FlatPosition; 512],
        slot: u64,
        kind: u64,
        cell: CellNumber,
        carrier: u64,
        width: u64,
        x: i64,
        y: i64,
    ) -> u64;

    /// The cells in conflict with a carrier, in the first of the lent places, and how many they are.
    pub safe fn chanbook_conflicts(
        settings: &[u64; 2],
        cells: &[u64; 512],
        carriers: &[u64; 512],
        widths: &[u64; 512],
        figures: &[u64; 5],
        positions: &[FlatPosition; 512],
        carrier: u64,
        width: u64,
        x: i64,
        y: i64,
        distance: u64,
        numbers: &mut [u64; 512],
    ) -> FlatValue;

    /// The lowest carrier of a range that conflicts with no cell.
    pub safe fn chanbook_first_free(
        settings: &[u64; 2],
        cells: &[u64; 512],
        carriers: &[u64; 512],
        widths: &[u64; 512],
        figures: &[u64; 5],
        positions: &[FlatPosition; 512],
        first: u64,
        last: u64,
        width: u64,
        x: i64,
        y: i64,
        distance: u64,
    ) -> FlatValue;

    /// The minute of a date, since 1970-01-01 00:00 UTC.
    pub safe fn chanbook_minute_of(date: FlatDate) -> FlatValue;

    /// The date of a minute.
    pub safe fn chanbook_date_of(minute: u64) -> FlatDateAnswer;

    /// Keeps what a question needs of the windows of group settings: 0, or the number of the settings.
    pub safe fn chanbook_windows_new(
        group: FlatGroupSettings,
        starts: &mut [u64; 128],
        ends: &mut [u64; 128],
        figures: &mut [u64; 2],
    ) -> u64;

    /// A minute asked of what is kept.
    pub safe fn chanbook_windows_ask(starts: &[u64; 128], ends: &[u64; 128], figures: &[u64; 2], minute: u64) -> FlatWindowAnswer;
}
