//! What a host asks of a shard.
use crate::message::{ConsensusMessage, flat_option};
use crate::sys::FlatCall;

/// What the host says of a message that comes in.
#[derive(Clone, Copy, Debug, PartialEq, Eq, Hash)]
pub struct Said {
    /// Whether the host holds the command that the message's value stands for.
    pub value_held: bool,
    /// The process that requested the value, if the host knows it.
    pub requester: Option<u64>,
    /// The fast mark of a read, for a ReadResponse.
    pub fast: bool,
}

/// A message that comes in, with what the host adds.
#[derive(Clone, Copy, Debug, PartialEq, Eq, Hash)]
pub struct Delivery {
    /// The message.
    pub message: ConsensusMessage,
    /// What the host says of it.
    pub said: Said,
    /// The process that requested the value in the held promise, if the host knows it.
    pub held_requester: Option<u64>,
}

impl Delivery {
    /// A message whose value the host holds, with no requester and no fast mark.
    pub fn of(message: ConsensusMessage) -> Delivery {
        Delivery { message, said: Said { value_held: true, requester: None, fast: false }, held_requester: None }
    }
}

/// A call on a shard.
#[derive(Clone, Copy, Debug, PartialEq, Eq, Hash)]
pub enum Call {
    /// Proposes a value in the shard's slot.
    Propose(u64),
    /// Begins a read. The tag and the arrival slot are the host's, and come back when it is served.
    StartRead {
        /// A number by which the host knows the read.
        tag: u64,
        /// The slot at which the read arrived.
        arrival_slot: u64,
    },
    /// Hands in a message that another member's call sent to this member.
    Receive(Delivery),
}

impl From<Call> for FlatCall {
    fn from(call: Call) -> FlatCall {
        match call {
            Call::Propose(v) => FlatCall { kind: 0, v, ..FlatCall::default() },
            Call::StartRead { tag, arrival_slot } => FlatCall { kind: 1, v: tag, arrival_slot, ..FlatCall::default() },
            Call::Receive(delivery) => FlatCall {
                kind: 2,
                message: delivery.message.into(),
                value_held: u64::from(delivery.said.value_held),
                requester: flat_option(delivery.said.requester),
                fast: u64::from(delivery.said.fast),
                held_requester: flat_option(delivery.held_requester),
                ..FlatCall::default()
            },
        }
    }
}
