//! Stands for upstream's kcensus engine, of which the messages alone were supplied.
pub mod message;

pub mod node_state {
    use serde::{Deserialize, Serialize};

    #[derive(Serialize, Deserialize, Debug, Clone)]
    pub struct NodeState;
}

pub mod propagation {
    pub type MessageId = usize;
}
