//! Stands for upstream's dependency layer, which no shard of the Paxos family reaches.
pub mod message {
    use serde::{Deserialize, Serialize};

    #[derive(Serialize, Deserialize, Debug, Clone)]
    pub enum DepMsg {
        PreAcceptOk { id: usize },
        Accept { id: usize },
        AcceptOk { id: usize },
        Other,
    }

    impl DepMsg {
        pub fn id(&self) -> Option<usize> {
            None
        }

        pub fn includes_value(&self) -> bool {
            false
        }

        pub fn replicas_only(&self) -> bool {
            false
        }
    }
}
