//! Chanbook's shard engine for a host in Rust. The engine is written in Rattle and proved; this crate links it and turns its numbers into Rust's
//! enums. Nothing is decided here but which of two proved functions takes a call ([`sys::chanbook_call`]).
//!
//! A host makes a [`Shard`] from [`GroupSettings`], hands it calls ([`Call`]) and acts on each [`Reply`]: it sends the messages, applies the
//! commit and answers the reads. Sockets, command bytes, forwarding and the numbers that stand for values are the host's.
//!
//! # Terms of use
//!
//! The proof that no two members commit different values in one slot (docs/PROOFS.md, demand 3) is about group runs. A host keeps to them so:
//!
//! - All members of a group have the same settings but for their own number, and each begins with [`Shard::new`].
//! - Each shard has one owner. A call's shard is the next call's shard, and nothing else writes to it. [`Shard::call`] takes `&mut self`, so
//!   within a process the compiler sees to it; a host that keeps shards elsewhere never brings back an older one.
//! - A message is handed in only where it was sent: as an earlier call gave it, unchanged, on a member that it was sent to. It may be handed in any
//!   number of times, late, in any order, or never.
//! - A member that stops gets no more calls, unless its shard is as its last call left it. A host that keeps shards over a restart stores the shard
//!   before it sends what the call handed back: else the group has heard what the stored shard does not know.
//!
//! What the host says beside a message ([`Said`]) may be anything. Agreement holds in every mode but SwiftPaxos.
//!
//! Nothing is claimed about progress, but that in MultiPaxos the commit comes on the answer that completes a majority (docs/QUESTIONS.md). A member proposes once in a slot, and where another's proposal was heard it gets 11; in MultiPaxos nobody stands in
//! for the first leader. A host that kept a lost message hands it in again, and proposes in a later slot what was not committed.
//!
//! A read is served once a majority has answered, and each response counts one, as in the original: a host hands a `ReadResponse` in once.
//!
//! Beside the engine, [`raster`] turns carrier numbers of TS 38.104 into kHz and back, [`register`] keeps what the committed entries say of the
//! cells: which carrier each has, and a report, [`catch_up`] joins lists of commits and feeds them to a register, and [`windows`] has the dates of the
//! calendar and the windows in which a carrier may go on air.
//!
//! # Example
//!
//! ```
//! use chanbook_shard::{Delivery, GroupSettings, LAST_SLOT, PFModeSetting, Refusal, Settings, Shard};
//! let settings = |me| GroupSettings::new(Settings::all_live(3, me, PFModeSetting::Paxos), LAST_SLOT);
//! let mut group: Vec<Shard> = (0..3).map(|me| Shard::new(&settings(me))).collect();
//!
//! // Office 2 proposes value 7. Every message is handed in where it was sent, until none is left.
//! let mut log = [None; 3];
//! let mut waiting: Vec<_> = group[2].propose(7).messages.into_iter().flatten().collect();
//! while let Some(sent) = waiting.pop() {
//!     for to in sent.receivers(3) {
//!         let reply = group[to as usize].receive(Delivery::of(sent.message));
//!         waiting.extend(reply.messages.into_iter().flatten());
//!         log[to as usize] = reply.commit.map(|commit| commit.v).or(log[to as usize]);
//!     }
//! }
//! assert_eq!(log, [Some(7); 3]);
//!
//! // A new proposal goes to slot 1; while it is under way the same member may not make another.
//! assert!(group[2].propose(8).outcome.is_ok());
//! assert_eq!(group[2].propose(9).outcome, Err(Refusal::ProposalNotAllowed));
//! ```
#![warn(missing_docs)]

mod call;
pub mod catch_up;
mod message;
pub mod planning_sys;
pub mod raster;
pub mod reach;
pub mod register;
mod reply;
mod settings;
mod shard;
pub mod sys;
pub mod windows;

pub use call::{Call, Delivery, Said};
pub use message::{ConsensusMessage, ConsensusMsg, PaxosRound, ReadId, RoundV};
pub use reply::{Commit, Destination, OpenRead, Outgoing, Refusal, Reply, ServedRead};
pub use settings::{GroupSettings, LAST_SLOT, PFModeSetting, Settings};
pub use shard::Shard;
