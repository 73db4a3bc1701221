//! What a run met, by mode.
use crate::calls::MODES;
use std::fmt::{Display, Formatter, Result};

const KINDS: [&str; 11] =
    ["", "settings", "state", "proposal", "new read", "Prepare", "Accept", "ForwardRequest", "Commit", "ReadRequest", "ReadResponse"];

/// The numbers by which settings, states and calls are refused.
pub const REFUSALS: [usize; 13] = [1, 2, 3, 4, 5, 6, 7, 8, 9, 10, 11, 12, 17];
const LARGEST_REFUSAL: usize = 17;

/// What a generator is there to bring about.
#[derive(Clone, Copy)]
pub enum Mark {
    /// A Prepare commits, on a state that was set directly.
    FastFromSetState,
    /// A ForwardRequest is delivered in a group run.
    Forwarded,
    /// A message is delivered that a call with changed numbers handed back.
    AfterDamage,
    /// A value within 1000 of 2^63−1 is committed.
    LargeValue,
    /// A Prepare or an Accept commits in a group of more than 16 processes.
    LargeGroup,
}

const MARKS: [&str; 5] = ["fast, state set", "forwarded", "after damage", "large values", "large groups"];

#[derive(Clone, Copy, Default)]
pub struct OfMode {
    pub kinds: [u64; KINDS.len()],
    pub refusals: [u64; LARGEST_REFUSAL + 1],
    pub commits: u64,
    pub fast_commits: u64,
    pub served: u64,
    pub adoptions: u64,
    pub ties: u64,
    /// Not to the lowest of the best.
    pub other_ties: u64,
    pub marks: [u64; MARKS.len()],
}

#[derive(Clone, Copy, Default)]
pub struct Counts {
    pub modes: [OfMode; MODES.len()],
    pub bad_lines: u64,
}

impl Counts {
    pub fn add(&mut self, other: &Counts) {
        for (sum, more) in self.modes.iter_mut().zip(&other.modes) {
            sum.kinds.iter_mut().zip(more.kinds).for_each(|(sum, more)| *sum += more);
            sum.refusals.iter_mut().zip(more.refusals).for_each(|(sum, more)| *sum += more);
            sum.commits += more.commits;
            sum.fast_commits += more.fast_commits;
            sum.served += more.served;
            sum.adoptions += more.adoptions;
            sum.ties += more.ties;
            sum.other_ties += more.other_ties;
            sum.marks.iter_mut().zip(more.marks).for_each(|(sum, more)| *sum += more);
        }
        self.bad_lines += other.bad_lines;
    }

    pub fn lines(&self) -> u64 {
        self.bad_lines + self.modes.iter().flat_map(|mode| mode.kinds).sum::<u64>()
    }

    pub fn refusals(&self, number: usize) -> u64 {
        self.modes.iter().map(|mode| mode.refusals[number]).sum()
    }
}

impl Display for Counts {
    fn fmt(&self, f: &mut Formatter<'_>) -> Result {
        let row = |f: &mut Formatter<'_>, name: &str, count: &dyn Fn(&OfMode) -> u64| -> Result {
            write!(f, "{name:16}")?;
            self.modes.iter().try_for_each(|mode| write!(f, "{:>13}", count(mode)))?;
            writeln!(f, "{:>13}", self.modes.iter().map(count).sum::<u64>())
        };
        write!(f, "{:16}", "")?;
        MODES.iter().try_for_each(|mode| write!(f, "{:>13}", format!("{mode:?}")))?;
        writeln!(f, "{:>13}", "all")?;
        row(f, "calls", &|mode| mode.kinds.iter().sum())?;
        for kind in 1..KINDS.len() {
            row(f, KINDS[kind], &move |mode| mode.kinds[kind])?;
        }
        for number in REFUSALS {
            row(f, &format!("refused {number}"), &move |mode| mode.refusals[number])?;
        }
        row(f, "commits", &|mode| mode.commits)?;
        row(f, "of them fast", &|mode| mode.fast_commits)?;
        row(f, "reads served", &|mode| mode.served)?;
        row(f, "adoptions", &|mode| mode.adoptions)?;
        row(f, "of them ties", &|mode| mode.ties)?;
        row(f, "to another", &|mode| mode.other_ties)?;
        for (mark, name) in MARKS.iter().enumerate() {
            row(f, name, &move |mode| mode.marks[mark])?;
        }
        write!(f, "bad lines {}", self.bad_lines)
    }
}
