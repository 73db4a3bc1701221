//! A shard, owned.
use crate::call::{Call, Delivery};
use crate::message::{PaxosRound, RoundV, option, promise, round};
use crate::reply::{OpenRead, Refusal, Reply, open_read, reply};
use crate::settings::GroupSettings;
use crate::sys::{self, FlatReply, FlatShard};

/// A shard: one member's part in agreeing on the slots of one log. It owns its memory and lends it to the engine for each call.
///
/// ```
/// use chanbook_shard::{Delivery, GroupSettings, LAST_SLOT, PFModeSetting, Settings, Shard};
/// let settings = |me| Settings::all_live(3, me, PFModeSetting::MultiPaxos);
/// let member = |me| Shard::new(&GroupSettings::new(settings(me), LAST_SLOT));
/// let (mut leader, mut other) = (member(0), member(1));
///
/// // The leader proposes, the other accepts, and with two of three the leader commits.
/// let accept = leader.propose(10).messages[0].unwrap().message;
/// let answer = other.receive(Delivery::of(accept)).messages[0].unwrap().message;
/// let commit = leader.receive(Delivery::of(answer)).commit.unwrap();
/// assert_eq!((commit.slot, commit.v), (0, 10));
/// assert_eq!((leader.slot(), other.slot()), (1, 0));
/// ```
#[derive(Clone, Debug, PartialEq, Eq)]
pub struct Shard {
    flat: Box<FlatShard>,
}

impl Shard {
    /// A new shard, at slot 0 and with no read open. Where the settings are outside the limits it is not made, and refuses every call with 1; or else,
    /// where a window has a date or a time that there is not, or an end that is not after its start, with 17.
    pub fn new(group: &GroupSettings) -> Shard {
        Shard { flat: FlatShard::begun(&group.into()) }
    }

    /// Whether the shard is made, as its calls ask it. A shard read back with an unknown mode is not made either.
    pub fn made(&self) -> Result<(), Refusal> {
        match self.flat.made {
            _ if self.flat.settings.mode > 5 => Err(Refusal::SettingsOutsideLimits),
            0 => Ok(()),
            17 => Err(Refusal::NotInCalendar),
            _ => Err(Refusal::SettingsOutsideLimits),
        }
    }

    /// A call. The reply is all that the host has to act on.
    pub fn call(&mut self, call: Call) -> Reply {
        let mut flat = FlatReply::default();
        sys::chanbook_call(&mut self.flat, &call.into(), &mut flat);
        reply(&flat, &self.flat.state.table.served)
    }

    /// Proposes a value in the shard's slot.
    pub fn propose(&mut self, v: u64) -> Reply {
        self.call(Call::Propose(v))
    }

    /// Begins a read.
    pub fn start_read(&mut self, tag: u64, arrival_slot: u64) -> Reply {
        self.call(Call::StartRead { tag, arrival_slot })
    }

    /// Hands in a message that another member's call sent to this member.
    pub fn receive(&mut self, delivery: Delivery) -> Reply {
        self.call(Call::Receive(delivery))
    }

    /// The slot that is being agreed on. Those before it are committed.
    pub fn slot(&self) -> u64 {
        self.flat.state.rounds.core.slot
    }

    /// The value committed last, if there is one.
    pub fn last_v(&self) -> Option<u64> {
        option(self.flat.state.rounds.core.last_v)
    }

    /// The round, if there is one.
    pub fn round(&self) -> Option<PaxosRound> {
        round(self.flat.state.rounds.core.round)
    }

    /// The held promise, if there is one.
    pub fn max_rv(&self) -> Option<RoundV> {
        let held = self.flat.state.rounds.core.max_rv;
        (held.given != 0).then(|| promise(held.promise))
    }

    /// The open reads, by number.
    pub fn open_reads(&self) -> impl Iterator<Item = OpenRead> {
        let count = self.flat.state.rounds.core.open_count.min(128) as usize;
        self.flat.state.table.reads[..count].iter().map(open_read)
    }

    /// The numbers of the shard, for a host that puts it aside.
    pub fn flat(&self) -> &FlatShard {
        &self.flat
    }

    /// A shard that was put aside. Whatever numbers it has, its calls end and are taken or refused; agreement is proved of a shard that goes
    /// from one call to the next unchanged.
    ///
    /// ```
    /// use chanbook_shard::{GroupSettings, LAST_SLOT, PFModeSetting, Settings, Shard};
    /// let settings = Settings::all_live(3, 0, PFModeSetting::Paxos);
    /// let mut shard = Shard::new(&GroupSettings::new(settings, LAST_SLOT));
    /// shard.propose(10);
    /// let aside = *shard.flat();
    /// assert_eq!(Shard::from_flat(Box::new(aside)), shard);
    /// ```
    pub fn from_flat(flat: Box<FlatShard>) -> Shard {
        Shard { flat }
    }
}
