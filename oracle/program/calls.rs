//! Settings, states, calls and answers in plain numbers, as the line format has them (docs/ORACLE.md).

/// "slot above 2^63−2, or other number above 2^63−1": the largest number that is not refused with 2.
pub const LARGEST_NUMBER: usize = (1 << 63) - 1;
/// The last slot that may be named. A host that wants no slot of whole MHz names it (document 02, E13).
pub const LAST_SLOT: usize = LARGEST_NUMBER - 1;
pub const OPEN_READ_LIMIT: usize = 128;
/// Places of a table by process.
pub const PLACES: usize = 64;
/// Windows in the settings of a group (document 02, E8).
pub const WINDOW_LIMIT: usize = 128;

#[derive(Clone, Copy, PartialEq, Eq, Debug)]
pub enum Mode {
    Paxos,
    MultiPaxos,
    MultiPaxos3P,
    EPaxos,
    Pando,
    SwiftPaxos,
}

/// In the order of their numbers.
pub const MODES: [Mode; 6] = [Mode::Paxos, Mode::MultiPaxos, Mode::MultiPaxos3P, Mode::EPaxos, Mode::Pando, Mode::SwiftPaxos];

impl Mode {
    pub fn has_fast_path(self) -> bool {
        matches!(self, Mode::EPaxos | Mode::SwiftPaxos)
    }

    pub fn is_multi_paxos(self) -> bool {
        matches!(self, Mode::MultiPaxos | Mode::MultiPaxos3P)
    }
}

/// A day and a time of day in UTC, in the order of time. Any numbers may stand in it.
#[derive(Clone, Copy, PartialEq, Eq, PartialOrd, Ord, Debug)]
pub struct Date {
    pub year: usize,
    pub month: usize,
    pub day: usize,
    pub hour: usize,
    pub minute: usize,
}

impl Date {
    /// "UTC year, month, day, hour (0 to 23) and minute (Gregorian calendar, years 1970 to 9999)"
    fn is_in_calendar(&self) -> bool {
        let is_leap = self.year % 4 == 0 && (self.year % 100 != 0 || self.year % 400 == 0);
        let days = match self.month {
            1 | 3 | 5 | 7 | 8 | 10 | 12 => 31,
            4 | 6 | 9 | 11 => 30,
            2 => 28 + is_leap as usize,
            _ => return false,
        };
        (1970..=9999).contains(&self.year) && (1..=days).contains(&self.day) && self.hour < 24 && self.minute < 60
    }

    pub fn numbers(&self) -> [usize; 5] {
        [self.year, self.month, self.day, self.hour, self.minute]
    }
}

#[derive(Clone, Copy, PartialEq, Eq, Debug)]
pub struct Window {
    pub start: Date,
    pub end: Date,
}

impl Window {
    /// "17, a date that the calendar or those years lack, a time outside the day, or a window whose end is not after its start"
    fn fits(&self) -> bool {
        self.start.is_in_calendar() && self.end.is_in_calendar() && self.start < self.end
    }
}

#[derive(Clone, PartialEq, Eq, Debug)]
pub struct Settings {
    pub process_count: usize,
    pub replica_count: usize,
    pub my_pid: usize,
    pub alive_replicas: u64,
    pub first_leader: usize,
    pub mode: Mode,
    pub quorum: Option<u64>,
    pub has_committers: bool,
    pub committers: Vec<usize>,
    pub delegates: Vec<usize>,
    /// Of the group (E13); the Rust has no part in it.
    pub whole_mhz_from: usize,
    /// Of the group too (E8).
    pub windows: Vec<Window>,
}

impl Settings {
    /// The number for which no shard is made of these: 17 is "checked when settings are made, after 1".
    pub fn refusal(&self) -> Option<u32> {
        if !self.within_limits() {
            return Some(1);
        }
        let all_fit = self.windows.iter().all(Window::fits);
        (!all_fit).then_some(17)
    }

    /// Row 1 of document 01's table, E13's slot ("one above 2^63−2 gives 1") and E8's windows ("More than 128 windows give 1"). What a mode does not
    /// have is not tested.
    fn within_limits(&self) -> bool {
        let count = self.process_count;
        if self.whole_mhz_from > LAST_SLOT || self.windows.len() > WINDOW_LIMIT {
            return false;
        }
        if count < 1 || count > PLACES || self.replica_count < 1 || self.replica_count > count {
            return false;
        }
        let fits = |set: u64| count == PLACES || set >> count == 0;
        let table_fits = |table: &[usize]| self.table(table).iter().all(|process| *process < count);
        self.my_pid < count
            && self.first_leader < count
            && fits(self.alive_replicas)
            && self.alive_replicas.count_ones() as usize <= self.replica_count
            && (!self.has_committers || table_fits(&self.committers))
            && (self.mode != Mode::Pando || table_fits(&self.delegates))
            && (self.mode != Mode::SwiftPaxos || self.quorum.is_none_or(fits))
    }

    /// The places of a table below the process count; those that the line does not name are 0.
    pub fn table(&self, named: &[usize]) -> Vec<usize> {
        let place = |process| named.get(process).copied().unwrap_or(0);
        (0..self.process_count).map(place).collect()
    }
}

#[derive(Clone, Copy, PartialEq, Eq, PartialOrd, Ord, Hash, Debug)]
pub struct Round {
    pub group: usize,
    pub leader: usize,
}

#[derive(Clone, Copy, PartialEq, Eq, PartialOrd, Ord, Hash, Debug)]
pub enum Promise {
    Fast { proposer: usize, v: usize },
    Paxos { accept_round: Option<Round>, v: usize },
}

impl Promise {
    pub fn v(self) -> usize {
        match self {
            Promise::Fast { v, .. } | Promise::Paxos { v, .. } => v,
        }
    }
}

#[derive(Clone, Copy, PartialEq, Eq, Hash, Debug)]
pub struct Proposer {
    pub proposer: usize,
    pub v: usize,
    pub epaxos_score: usize,
    pub swift_score: usize,
}

#[derive(Clone, Copy, PartialEq, Eq, Hash, Debug)]
pub struct OpenRead {
    pub id: usize,
    pub tag: usize,
    pub arrival_slot: usize,
    pub ready_count: usize,
    pub local_ready: bool,
}

#[derive(Clone, PartialEq, Eq, Hash, Debug)]
pub struct State {
    pub slot: usize,
    pub last_v: Option<usize>,
    pub left_fast_path: bool,
    pub round: Option<Round>,
    pub held: Option<Promise>,
    pub prepared_set: u64,
    pub accepted_set: u64,
    pub fast_answer_set: u64,
    pub fast_preaccepted: usize,
    pub fast_proposers: u64,
    pub swift_leader_answer: Option<usize>,
    pub next_id: usize,
    /// Places of the proposer tables, also of those that are not in `fast_proposers`.
    pub proposers: Vec<Proposer>,
    pub reads: Vec<OpenRead>,
}

#[derive(Clone, Copy, PartialEq, Eq, PartialOrd, Ord, Hash, Debug)]
pub enum Message {
    Prepare { slot: usize, round: Round, promise: Promise },
    Accept { slot: usize, round: Round, v: usize },
    ForwardRequest { v: usize },
    Commit { slot: usize, v: usize },
    ReadRequest { id: usize },
    ReadResponse { id: usize, next_readable_slot: usize },
}

impl Message {
    pub fn v(self) -> Option<usize> {
        match self {
            Message::Prepare { promise, .. } => Some(promise.v()),
            Message::Accept { v, .. } | Message::ForwardRequest { v } | Message::Commit { v, .. } => Some(v),
            Message::ReadRequest { .. } | Message::ReadResponse { .. } => None,
        }
    }
}

#[derive(Clone, Copy, PartialEq, Eq, Hash, Debug)]
pub struct Frame {
    pub src: usize,
    pub last_v: Option<usize>,
    pub message: Message,
}

/// What the host says of a call.
#[derive(Clone, Copy, Debug)]
pub struct Words {
    pub value_held: bool,
    pub requester: Option<usize>,
    pub fast: bool,
    pub held_requester: Option<usize>,
}

#[derive(Clone, Copy, Debug)]
pub enum Call {
    Propose(usize),
    StartRead { tag: usize, arrival_slot: usize },
    Receive(Frame, Words),
}

#[derive(Clone, Debug)]
pub enum Line {
    Settings(Settings),
    State(State),
    Call(Call),
}

#[derive(Clone, Copy, PartialEq, Eq, Debug)]
pub struct Outgoing {
    /// `None`: all others.
    pub destination: Option<usize>,
    pub first: Option<usize>,
    pub last_v: Option<usize>,
    pub message: Message,
}

#[derive(Clone, Copy, PartialEq, Eq, Debug)]
pub struct Commit {
    pub slot: usize,
    pub v: usize,
    pub fast: bool,
}

#[derive(Clone, Copy, PartialEq, Eq, Debug)]
pub struct Served {
    pub id: usize,
    pub tag: usize,
    pub waited_for: usize,
    pub fast: bool,
}

#[derive(Clone, PartialEq, Eq, Debug, Default)]
pub struct Done {
    pub sent: Vec<Outgoing>,
    pub commit: Option<Commit>,
    pub served: Vec<Served>,
}

/// What a call hands back: what was done, or the number of the refusal.
pub type Outcome = Result<Done, u32>;
