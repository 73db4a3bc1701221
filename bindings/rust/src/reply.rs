//! What a call hands back.
use crate::message::{ConsensusMessage, ReadId, message, option};
use crate::sys::{FlatCommit, FlatOpenRead, FlatOutgoing, FlatReply, FlatServedRead};
use std::fmt;

/// Why a call is refused. After a refusal the shard is as it was before the call, and nothing is sent.
///
/// ```
/// use chanbook_shard::Refusal;
/// assert_eq!(Refusal::SlotAhead.number(), 5);
/// assert_eq!(Refusal::from_number(12), Some(Refusal::NoRoomForRead));
/// assert_eq!(Refusal::from_number(13), None);
/// ```
#[derive(Clone, Copy, Debug, PartialEq, Eq, PartialOrd, Ord, Hash)]
#[repr(u8)]
pub enum Refusal {
    /// The settings are outside their limits: the shard was never made.
    SettingsOutsideLimits = 1,
    /// A number is too large, or the slots are spent.
    NumberTooLarge = 2,
    /// A process number is not below the process count.
    NoSuchProcess = 3,
    /// The sender had committed another value in the slot before this one.
    OtherLastValue = 4,
    /// The message's slot is ahead of the shard's. The host hands it in again after the next commit.
    SlotAhead = 5,
    /// The host does not hold the value yet. It hands the message in again when it does.
    ValueNotHeld = 6,
    /// The source is not a live replica.
    SourceNotLive = 7,
    /// The Rust original panics on this message, and no other number says why.
    Panic = 8,
    /// An accept is unlike the held one, or the own one comes after a counted one.
    AcceptUnlikeHeld = 9,
    /// A process answered a second time on the fast path.
    SecondFastAnswer = 10,
    /// The shard may not propose now, and in MultiPaxos another than the leader never may. The host forwards the command, or proposes again in a
    /// later slot.
    ProposalNotAllowed = 11,
    /// 128 reads are open, or the read numbers are spent.
    NoRoomForRead = 12,
    /// A window of the settings has a date or a time that there is not, or an end that is not after its start: the shard was never made.
    NotInCalendar = 17,
}

impl Refusal {
    /// All refusals, by number.
    pub const ALL: [Refusal; 13] = [
        Refusal::SettingsOutsideLimits,
        Refusal::NumberTooLarge,
        Refusal::NoSuchProcess,
        Refusal::OtherLastValue,
        Refusal::SlotAhead,
        Refusal::ValueNotHeld,
        Refusal::SourceNotLive,
        Refusal::Panic,
        Refusal::AcceptUnlikeHeld,
        Refusal::SecondFastAnswer,
        Refusal::ProposalNotAllowed,
        Refusal::NoRoomForRead,
        Refusal::NotInCalendar,
    ];

    /// The number by which document 01 or 02 names the refusal.
    pub fn number(self) -> u64 {
        self as u64
    }

    /// The refusal with this number.
    pub fn from_number(number: u64) -> Option<Refusal> {
        Refusal::ALL.into_iter().find(|refusal| refusal.number() == number)
    }
}

impl fmt::Display for Refusal {
    fn fmt(&self, f: &mut fmt::Formatter<'_>) -> fmt::Result {
        let why = match self {
            Refusal::SettingsOutsideLimits => "settings outside the limits",
            Refusal::NumberTooLarge => "a number is too large, or the slots are spent",
            Refusal::NoSuchProcess => "no such process",
            Refusal::OtherLastValue => "another last value",
            Refusal::SlotAhead => "the slot is ahead",
            Refusal::ValueNotHeld => "the value is not held",
            Refusal::SourceNotLive => "the source is not a live replica",
            Refusal::Panic => "the Rust original panics on this message",
            Refusal::AcceptUnlikeHeld => "an accept unlike the held one",
            Refusal::SecondFastAnswer => "a second fast answer from one process",
            Refusal::ProposalNotAllowed => "no proposal is allowed now",
            Refusal::NoRoomForRead => "no room for a read",
            Refusal::NotInCalendar => "a window is not in the calendar",
        };
        write!(f, "refused, {}: {why}", self.number())
    }
}

impl std::error::Error for Refusal {}

/// Where a message goes.
#[derive(Clone, Copy, Debug, PartialEq, Eq, Hash)]
pub enum Destination {
    /// To one process.
    One(u64),
    /// To every process but the sender; to this one first, if it is given.
    All(Option<u64>),
}

/// A message to send.
#[derive(Clone, Copy, Debug, PartialEq, Eq, Hash)]
pub struct Outgoing {
    /// Where it goes.
    pub destination: Destination,
    /// The message, with this process as its source and the last value that goes with it.
    pub message: ConsensusMessage,
}

impl Outgoing {
    /// The processes that get the message, in the order in which they are served, in a group of so many.
    ///
    /// ```
    /// use chanbook_shard::{GroupSettings, LAST_SLOT, PFModeSetting, Settings, Shard};
    /// let settings = Settings::all_live(3, 1, PFModeSetting::Paxos);
    /// let mut shard = Shard::new(&GroupSettings::new(settings, LAST_SLOT));
    /// let reply = shard.propose(10);
    /// let to: Vec<u64> = reply.sent().flat_map(|sent| sent.receivers(3)).collect();
    /// assert_eq!(to, [0, 2]);
    /// ```
    pub fn receivers(&self, process_count: u64) -> impl Iterator<Item = u64> + use<> {
        let (first, rest) = match self.destination {
            Destination::One(p) => (Some(p), 0),
            Destination::All(first) => (first, process_count),
        };
        let src = self.message.src;
        let others = (0..rest).filter(move |p| *p != src && Some(*p) != first);
        first.into_iter().chain(others)
    }
}

/// A value that the call committed.
#[derive(Clone, Copy, Debug, PartialEq, Eq, Hash)]
pub struct Commit {
    /// The slot.
    pub slot: u64,
    /// The value.
    pub v: u64,
    /// Whether it was committed on the fast path.
    pub fast: bool,
}

/// A read that waits for answers or for a commit.
#[derive(Clone, Copy, Debug, PartialEq, Eq, Hash)]
pub struct OpenRead {
    /// Its number.
    pub id: ReadId,
    /// The host's number for it.
    pub tag: u64,
    /// The slot at which it arrived.
    pub arrival_slot: u64,
    /// How many answers were counted.
    pub ready_count: u64,
    /// Whether the own process is ready to serve it.
    pub local_ready: bool,
}

/// A read that the call served.
#[derive(Clone, Copy, Debug, PartialEq, Eq, Hash)]
pub struct ServedRead {
    /// Its number.
    pub id: ReadId,
    /// The host's number for it.
    pub tag: u64,
    /// The slot less the arrival slot, or 0.
    pub waited_for: u64,
    /// The host's fast mark of the response that served it; no where a commit did.
    pub fast: bool,
}

/// What a call hands back.
#[derive(Clone, Debug, PartialEq, Eq)]
pub struct Reply {
    /// Whether the call was taken. Where it was refused, nothing else is in the reply.
    pub outcome: Result<(), Refusal>,
    /// The messages to send, in this order.
    pub messages: [Option<Outgoing>; 3],
    /// The commit, if there is one.
    pub commit: Option<Commit>,
    /// The reads served, by number.
    pub served_reads: Vec<ServedRead>,
}

impl Reply {
    /// The messages to send, in order.
    pub fn sent(&self) -> impl Iterator<Item = &Outgoing> {
        self.messages.iter().flatten()
    }
}

fn outcome(number: u64) -> Result<(), Refusal> {
    match number {
        0 => Ok(()),
        n => Err(Refusal::from_number(n).unwrap_or_else(|| unreachable!("the engine refuses with 1 to 12 and 17, not with {n}"))),
    }
}

fn outgoing(f: &FlatOutgoing) -> Option<Outgoing> {
    let destination = match f.kind {
        0 => return None,
        1 => Destination::One(f.to),
        2 => Destination::All(option(f.first)),
        kind => unreachable!("the engine writes a destination as 1 or 2, not as {kind}"),
    };
    Some(Outgoing { destination, message: message(&f.message) })
}

fn commit(f: FlatCommit) -> Option<Commit> {
    (f.given != 0).then_some(Commit { slot: f.slot, v: f.v, fast: f.fast != 0 })
}

pub(crate) fn open_read(f: &FlatOpenRead) -> OpenRead {
    OpenRead { id: ReadId(f.id), tag: f.tag, arrival_slot: f.arrival_slot, ready_count: f.ready_count, local_ready: f.local_ready != 0 }
}

fn served_read(f: &FlatServedRead) -> ServedRead {
    ServedRead { id: ReadId(f.id), tag: f.tag, waited_for: f.waited_for, fast: f.fast != 0 }
}

/// The reply, with the reads that stand in the first places of the shard's table of served reads.
pub(crate) fn reply(f: &FlatReply, served: &[FlatServedRead; 128]) -> Reply {
    let count = f.served_count.min(128) as usize;
    Reply {
        outcome: outcome(f.outcome),
        messages: [&f.first, &f.second, &f.third].map(outgoing),
        commit: commit(f.commit),
        served_reads: served[..count].iter().map(served_read).collect(),
    }
}
