//! The claim of document 01 on a group run ("Group runs"): agreement, and that what is committed in a slot was proposed in it before.
use std::collections::{HashMap, HashSet};

#[derive(Default)]
pub struct Claim {
    /// Slot and value of each proposal that was not refused.
    proposed: HashSet<(usize, usize)>,
    committed: HashMap<usize, usize>,
    /// What the run breaks, if it does.
    pub broken: Option<String>,
}

impl Claim {
    pub fn propose(&mut self, slot: usize, v: usize) {
        self.proposed.insert((slot, v));
    }

    pub fn commit(&mut self, slot: usize, v: usize) {
        let first = *self.committed.entry(slot).or_insert(v);
        if first != v {
            self.broken = Some(format!("slot {slot}: {first} and {v} are committed"));
        }
        if !self.proposed.contains(&(slot, v)) {
            self.broken = Some(format!("slot {slot}: {v} is committed and was not proposed"));
        }
    }

    /// Slots in which something was committed.
    pub fn decided(&self) -> usize {
        self.committed.len()
    }
}
