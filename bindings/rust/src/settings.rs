//! The settings of a group, as its host makes them for one member.
use crate::message::flat_option;
use crate::sys::{FlatGroupSettings, FlatSettings};
use crate::windows::Window;

/// The mode, with its tables.
#[expect(clippy::large_enum_variant, reason = "settings are made once for each shard")]
#[derive(Clone, Debug, PartialEq, Eq)]
pub enum PFModeSetting {
    /// Every member may propose.
    Paxos,
    /// The first leader alone proposes, and needs no promises.
    MultiPaxos,
    /// As MultiPaxos, and an accepted value is also told to its committer, which commits it a step earlier.
    MultiPaxos3P,
    /// Every member may propose, with a fast path: one exchange where the EPaxos quorum answers for one proposer alone.
    EPaxos,
    /// As Paxos, and the delegate of a leader gathers the promises of its rounds.
    Pando {
        /// The delegate of each process. Places from the process count on do not count.
        delegates: [u64; 64],
    },
    /// With a fast path. It follows the Rust original, which can commit two values in one slot: a group that must agree does not use it.
    SwiftPaxos {
        /// The set of processes whose answers count on the fast path, if it is fixed: process p is bit p.
        quorum: Option<u64>,
    },
}

/// The last slot that may be named.
pub const LAST_SLOT: u64 = (1 << 63) - 2;

/// The engine's settings of one member. All members of a group have the same ones but for `my_pid`.
///
/// ```
/// use chanbook_shard::{PFModeSetting, Settings};
/// let settings = Settings::all_live(5, 0, PFModeSetting::Paxos);
/// assert_eq!(settings.alive_replicas, 0b11111);
/// ```
#[derive(Clone, Debug, PartialEq, Eq)]
pub struct Settings {
    /// Processes of the group, 1 to 64. They have the numbers from 0 on.
    pub process_count: u64,
    /// How many of them are replicas, 1 to all. The quorums follow from it.
    pub replica_count: u64,
    /// The number of this process.
    pub my_pid: u64,
    /// The set of live replicas: process p is bit p. It has no more members than `replica_count`.
    pub alive_replicas: u64,
    /// The process that leads first, in the modes that have a leader from the start.
    pub first_leader: u64,
    /// The mode.
    pub mode: PFModeSetting,
    /// The committer of each process, if there are committers. Places from the process count on do not count.
    pub committers: Option<[u64; 64]>,
}

impl Settings {
    /// A group in which every process is a live replica, process 0 leads first and there are no committers.
    pub fn all_live(process_count: u64, my_pid: u64, mode: PFModeSetting) -> Settings {
        let all = match process_count {
            0..64 => (1 << process_count) - 1,
            _ => u64::MAX,
        };
        Settings { process_count, replica_count: process_count, my_pid, alive_replicas: all, first_leader: 0, mode, committers: None }
    }
}

/// The settings of a group with what its planners agree on besides. A shard begins from them.
///
/// ```
/// use chanbook_shard::{GroupSettings, LAST_SLOT, PFModeSetting, Refusal, Settings, Shard};
/// let settings = Settings::all_live(5, 0, PFModeSetting::Paxos);
/// assert!(Shard::new(&GroupSettings::new(settings.clone(), 1000)).made().is_ok());
/// let late = GroupSettings::new(settings.clone(), LAST_SLOT + 1);
/// assert_eq!(Shard::new(&late).made(), Err(Refusal::SettingsOutsideLimits));
/// let outside = GroupSettings::new(Settings { my_pid: 5, ..settings.clone() }, LAST_SLOT);
/// assert_eq!(Shard::new(&outside).made(), Err(Refusal::SettingsOutsideLimits));
///
/// use chanbook_shard::windows::{Date, Window};
/// let night = |day| Window::new(Date::new(2023, 2, day, 22, 0), Date::new(2023, 2, day, 23, 30));
/// let within = |windows| GroupSettings::new(settings.clone(), LAST_SLOT).with_windows(windows);
/// assert!(Shard::new(&within(vec![night(27), night(28)])).made().is_ok());
/// assert_eq!(Shard::new(&within(vec![night(28), night(29)])).made(), Err(Refusal::NotInCalendar), "2023 is no leap year");
/// assert_eq!(Shard::new(&within(vec![night(29); 129])).made(), Err(Refusal::SettingsOutsideLimits), "more than 128 windows");
/// ```
#[derive(Clone, Debug, PartialEq, Eq)]
pub struct GroupSettings {
    /// The engine's.
    pub settings: Settings,
    /// The slot from which the width of an assignment must be whole MHz (document 02, E13). It is at most [`LAST_SLOT`], and the same at all members.
    pub whole_mhz_from: u64,
    /// The windows in which a carrier may go on air (document 02, E8), at most 128, in any order. They may overlap, and are the same at all members.
    pub windows: Vec<Window>,
}

impl GroupSettings {
    /// Settings without a window. A host that wants no slot of whole MHz names [`LAST_SLOT`], which binds the last slot alone.
    pub fn new(settings: Settings, whole_mhz_from: u64) -> GroupSettings {
        GroupSettings { settings, whole_mhz_from, windows: vec![] }
    }

    /// The same settings with these windows.
    pub fn with_windows(self, windows: Vec<Window>) -> GroupSettings {
        GroupSettings { windows, ..self }
    }
}

impl From<&GroupSettings> for FlatGroupSettings {
    fn from(group: &GroupSettings) -> FlatGroupSettings {
        FlatGroupSettings {
            settings: (&group.settings).into(),
            whole_mhz_from: group.whole_mhz_from,
            windows: group.windows.as_slice().into(),
        }
    }
}

impl From<&Settings> for FlatSettings {
    fn from(settings: &Settings) -> FlatSettings {
        let (mode, quorum, delegates) = match settings.mode {
            PFModeSetting::Paxos => (0, None, [0; 64]),
            PFModeSetting::MultiPaxos => (1, None, [0; 64]),
            PFModeSetting::MultiPaxos3P => (2, None, [0; 64]),
            PFModeSetting::EPaxos => (3, None, [0; 64]),
            PFModeSetting::Pando { delegates } => (4, None, delegates),
            PFModeSetting::SwiftPaxos { quorum } => (5, quorum, [0; 64]),
        };
        FlatSettings {
            process_count: settings.process_count,
            replica_count: settings.replica_count,
            my_pid: settings.my_pid,
            alive_replicas: settings.alive_replicas,
            first_leader: settings.first_leader,
            mode,
            quorum: flat_option(quorum),
            has_committers: u64::from(settings.committers.is_some()),
            committers: settings.committers.unwrap_or([0; 64]),
            delegates,
        }
    }
}
