//! Stands for upstream's message.rs: the frames that carry the messages of consensus.
use crate::consensus::deps::message::DepMsg;
use crate::consensus::message::{CommandBatch, ConsensusMessage};
use serde::{Deserialize, Serialize};

#[derive(Serialize, Deserialize, Debug, Clone)]
pub enum Message {
    ConsensusM { shard: usize, msg: ConsensusMessage, value: Option<CommandBatch> },
    DepAcks { src: usize, acks: Vec<(usize, DepMsg)> },
    Done,
}

impl Message {
    pub fn is_consensus_msg(&self) -> bool {
        matches!(self, Message::ConsensusM { .. })
    }
}

pub struct MsgWithSource {
    pub src: usize,
    pub msg: Message,
}
