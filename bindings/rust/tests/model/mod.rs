//! E6 and E13 of document 02 in plain Rust, over a map of the standard library. It is written from the document alone.
#![allow(dead_code, reason = "register_speed gives no unknown kind")]
use chanbook_shard::register::{Assignment, CellEntry, CellNumber, Change, Figures};
use chanbook_shard::{GroupSettings, PFModeSetting, Settings};
use std::collections::BTreeMap;
use std::collections::btree_map::Entry;

/// The settings of a group of three whose widths are in whole MHz from this slot on.
pub fn group(whole_mhz_from: u64) -> GroupSettings {
    GroupSettings::new(Settings::all_live(3, 0, PFModeSetting::Paxos), whole_mhz_from)
}

/// The slot of whole MHz, the last slot seen, the live cells, and a counter for each figure.
#[derive(Clone, Debug, Default, PartialEq)]
pub struct Model {
    pub whole_mhz_from: u64,
    pub last_seen: Option<u64>,
    pub live: BTreeMap<CellNumber, Assignment>,
    made: u64,
    superseded: u64,
    released: u64,
}

impl Model {
    pub fn new(whole_mhz_from: u64) -> Model {
        Model { whole_mhz_from, ..Model::default() }
    }

    /// 0 for what is done, 64 for an older entry, else document 02's number.
    pub fn apply(&mut self, entry: &CellEntry) -> u64 {
        if let Some(number) = self.see(entry.slot) {
            return number;
        }
        match entry.change {
            Change::Assign(assignment) => self.assign(entry.slot, entry.cell, assignment),
            Change::Release => self.release(entry.cell),
        }
    }

    /// An entry whose kind is neither an assignment nor a release.
    pub fn apply_unknown(&mut self, slot: u64) -> u64 {
        self.see(slot).unwrap_or(14)
    }

    /// The slot is seen, or the number that it gives.
    fn see(&mut self, slot: u64) -> Option<u64> {
        if slot > (1 << 63) - 2 {
            return Some(2);
        }
        if self.last_seen.is_some_and(|last| slot <= last) {
            return Some(64);
        }
        self.last_seen = Some(slot);
        None
    }

    fn assign(&mut self, slot: u64, cell: CellNumber, assignment: Assignment) -> u64 {
        if assignment.carrier > 3_279_165 || !(1..=400_000).contains(&assignment.width) {
            return 14;
        }
        if slot >= self.whole_mhz_from && assignment.width % 1000 != 0 {
            return 23;
        }
        let full = self.live.len() == 512;
        match self.live.entry(cell) {
            Entry::Occupied(mut held) => {
                held.insert(assignment);
                self.superseded += 1;
            }
            Entry::Vacant(_) if full => return 15,
            Entry::Vacant(place) => {
                place.insert(assignment);
            }
        }
        self.made += 1;
        0
    }

    fn release(&mut self, cell: CellNumber) -> u64 {
        if self.live.remove(&cell).is_none() {
            return 16;
        }
        self.released += 1;
        0
    }

    pub fn figures(&self) -> Figures {
        Figures { made: self.made, superseded: self.superseded, released: self.released, live: self.live.len() as u64 }
    }
}
