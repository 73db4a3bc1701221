//! The reader of call lines (docs/ORACLE.md).
use crate::calls::{
    Call, Date, Frame, Line, MODES, Message, OPEN_READ_LIMIT, OpenRead, PLACES, Promise, Proposer, Round, Settings, State, Window, Words,
};

/// Why a line is no call, in the order of looking; a line of too many bytes is too long before all else.
#[derive(Clone, Copy, PartialEq, Eq, PartialOrd, Ord, Debug)]
pub enum BadLine {
    NotDecimal,
    NumberAbove,
    TooLong,
    UnknownKind,
    WrongCount,
    NotFlag,
    NoSuchMode,
    NoSuchPromise,
    TableLimit,
}

impl BadLine {
    pub fn reason(self) -> &'static str {
        match self {
            BadLine::NotDecimal => "not decimal numbers",
            BadLine::NumberAbove => "number above 18446744073709551615",
            BadLine::TooLong => "too long",
            BadLine::UnknownKind => "unknown kind",
            BadLine::WrongCount => "wrong count of numbers",
            BadLine::NotFlag => "not a flag",
            BadLine::NoSuchMode => "no such mode",
            BadLine::NoSuchPromise => "no such promise",
            BadLine::TableLimit => "table place above its limit",
        }
    }
}

const NUMBERS_LIMIT: usize = 2048;
/// `replay` reads into a buffer of that many bytes, and a line has to fit with its line feed.
const BYTES_LIMIT: usize = 65536;

fn is_decimal(line: &[u8]) -> bool {
    let digits_and_spaces = line.iter().all(|byte| byte.is_ascii_digit() || *byte == b' ');
    let space_at_an_end = line.first() == Some(&b' ') || line.last() == Some(&b' ');
    digits_and_spaces && !space_at_an_end && !line.windows(2).any(|pair| pair == b"  ")
}

fn number(digits: &[u8]) -> Option<usize> {
    digits.iter().try_fold(0usize, |value, digit| value.checked_mul(10)?.checked_add((digit - b'0') as usize))
}

fn numbers(line: &[u8]) -> Result<Vec<usize>, BadLine> {
    if line.len() >= BYTES_LIMIT {
        return Err(BadLine::TooLong);
    }
    if !is_decimal(line) {
        return Err(BadLine::NotDecimal);
    }
    let words = line.split(|byte| *byte == b' ');
    let numbers: Option<Vec<usize>> = words.map(number).collect();
    let numbers = numbers.ok_or(BadLine::NumberAbove)?;
    if numbers.len() > NUMBERS_LIMIT { Err(BadLine::TooLong) } else { Ok(numbers) }
}

/// The numbers of a line whose count is right, taken one after the other. The first fault in the order of looking is kept, wherever in the
/// line it stands.
struct Fields<'a> {
    numbers: std::slice::Iter<'a, usize>,
    fault: Option<BadLine>,
}

impl Fields<'_> {
    fn fault(&mut self, fault: BadLine) {
        self.fault = Some(self.fault.map_or(fault, |earlier| earlier.min(fault)));
    }

    fn number(&mut self) -> usize {
        *self.numbers.next().expect("the count was looked at before")
    }

    fn set(&mut self) -> u64 {
        self.number() as u64
    }

    fn flag(&mut self) -> bool {
        let flag = self.number();
        if flag > 1 {
            self.fault(BadLine::NotFlag);
        }
        flag == 1
    }

    fn optional(&mut self) -> Option<usize> {
        let given = self.flag();
        let number = self.number();
        given.then_some(number)
    }

    /// The length of a table, at most `limit`.
    fn length(&mut self, limit: usize) -> usize {
        let length = self.number();
        if length > limit {
            self.fault(BadLine::TableLimit);
        }
        length
    }

    fn table(&mut self) -> Vec<usize> {
        let length = self.length(PLACES);
        (0..length).map(|_| self.number()).collect()
    }

    fn round(&mut self) -> Round {
        Round { group: self.number(), leader: self.number() }
    }

    fn optional_round(&mut self) -> Option<Round> {
        let given = self.flag();
        let round = self.round();
        given.then_some(round)
    }

    /// Kind 3, nothing, may stand in a state alone.
    fn held(&mut self) -> Option<Promise> {
        let (kind, round, v) = (self.number(), self.round(), self.number());
        match kind {
            0 => Some(Promise::Fast { proposer: round.group, v }),
            1 => Some(Promise::Paxos { accept_round: None, v }),
            2 => Some(Promise::Paxos { accept_round: Some(round), v }),
            3 => None,
            _ => {
                self.fault(BadLine::NoSuchPromise);
                None
            }
        }
    }

    fn promise(&mut self) -> Promise {
        self.held().unwrap_or_else(|| {
            self.fault(BadLine::NoSuchPromise);
            Promise::Paxos { accept_round: None, v: 0 }
        })
    }

    fn words(&mut self) -> Words {
        Words { value_held: self.flag(), requester: self.optional(), fast: self.flag(), held_requester: self.optional() }
    }

    fn date(&mut self) -> Date {
        Date { year: self.number(), month: self.number(), day: self.number(), hour: self.number(), minute: self.number() }
    }

    /// However many stand on the line.
    fn windows(&mut self) -> Vec<Window> {
        let count = self.number();
        (0..count).map(|_| Window { start: self.date(), end: self.date() }).collect()
    }

    fn settings(&mut self) -> Settings {
        let (process_count, replica_count, my_pid) = (self.number(), self.number(), self.number());
        let (alive_replicas, first_leader, mode) = (self.set(), self.number(), self.number());
        if mode >= MODES.len() {
            self.fault(BadLine::NoSuchMode);
        }
        Settings {
            process_count,
            replica_count,
            my_pid,
            alive_replicas,
            first_leader,
            mode: MODES[mode % MODES.len()],
            quorum: self.optional().map(|set| set as u64),
            has_committers: self.flag(),
            committers: self.table(),
            delegates: self.table(),
            whole_mhz_from: self.number(),
            windows: self.windows(),
        }
    }

    fn proposer(&mut self) -> Proposer {
        let proposer = self.number();
        if proposer >= PLACES {
            self.fault(BadLine::TableLimit);
        }
        Proposer { proposer, v: self.number(), epaxos_score: self.number(), swift_score: self.number() }
    }

    fn open_read(&mut self) -> OpenRead {
        OpenRead {
            id: self.number(),
            tag: self.number(),
            arrival_slot: self.number(),
            ready_count: self.number(),
            local_ready: self.flag(),
        }
    }

    fn state(&mut self) -> State {
        State {
            slot: self.number(),
            last_v: self.optional(),
            left_fast_path: self.flag(),
            round: self.optional_round(),
            held: self.held(),
            prepared_set: self.set(),
            accepted_set: self.set(),
            fast_answer_set: self.set(),
            fast_preaccepted: self.number(),
            fast_proposers: self.set(),
            swift_leader_answer: self.optional(),
            next_id: self.number(),
            proposers: {
                let length = self.length(PLACES);
                (0..length).map(|_| self.proposer()).collect()
            },
            reads: {
                let length = self.length(OPEN_READ_LIMIT);
                (0..length).map(|_| self.open_read()).collect()
            },
        }
    }

    fn message(&mut self, kind: usize) -> Message {
        match kind {
            5 => Message::Prepare { slot: self.number(), round: self.round(), promise: self.promise() },
            6 => Message::Accept { slot: self.number(), round: self.round(), v: self.number() },
            7 => Message::ForwardRequest { v: self.number() },
            8 => Message::Commit { slot: self.number(), v: self.number() },
            9 => Message::ReadRequest { id: self.number() },
            _ => Message::ReadResponse { id: self.number(), next_readable_slot: self.number() },
        }
    }

    fn line(&mut self) -> Line {
        let kind = self.number();
        match kind {
            1 => Line::Settings(self.settings()),
            2 => Line::State(self.state()),
            3 => Line::Call(Call::Propose(self.number())),
            4 => Line::Call(Call::StartRead { tag: self.number(), arrival_slot: self.number() }),
            _ => {
                let (src, last_v) = (self.number(), self.optional());
                let frame = Frame { src, last_v, message: self.message(kind) };
                Line::Call(Call::Receive(frame, self.words()))
            }
        }
    }
}

/// The count of numbers with two tables, whose lengths stand in front of them: the first at that place, the second behind the first.
fn count_with_tables(numbers: &[usize], first: usize, first_width: usize, second_width: usize) -> Option<usize> {
    let second = numbers.get(first)?.checked_mul(first_width)?.checked_add(first + 1)?;
    numbers.get(second)?.checked_mul(second_width)?.checked_add(second + 1)
}

/// The count of numbers that the line should have; none where it ends before a length.
fn right_count(numbers: &[usize]) -> Option<usize> {
    const WORDS: usize = 6;
    // kind, source and last value
    const FRAME: usize = 4;
    match numbers[0] {
        // behind the tables the slot of whole MHz, and behind it the windows
        1 => {
            let windows = count_with_tables(numbers, 10, 1, 1)?.checked_add(1)?;
            numbers.get(windows)?.checked_mul(10)?.checked_add(windows + 1)
        }
        2 => count_with_tables(numbers, 20, 4, 5),
        3 => Some(2),
        4 => Some(3),
        5 => Some(FRAME + 7 + WORDS),
        6 => Some(FRAME + 4 + WORDS),
        8 | 10 => Some(FRAME + 2 + WORDS),
        _ => Some(FRAME + 1 + WORDS),
    }
}

/// The line without its line feed; it is not empty and no comment.
pub fn read_line(line: &[u8]) -> Result<Line, BadLine> {
    let numbers = numbers(line)?;
    if !(1..=10).contains(&numbers[0]) {
        return Err(BadLine::UnknownKind);
    }
    if right_count(&numbers) != Some(numbers.len()) {
        return Err(BadLine::WrongCount);
    }
    let mut fields = Fields { numbers: numbers.iter(), fault: None };
    let line = fields.line();
    fields.fault.map_or(Ok(line), Err)
}
