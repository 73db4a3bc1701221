//! A topology from counts and the live set alone: the engine asks for nothing else of it.
use super::Topology;
use bit_set::BitSet;

pub fn topology(process_count: usize, replica_count: usize, alive_replicas: BitSet) -> Topology {
    Topology {
        nb_processes: process_count,
        nb_replicas: replica_count,
        alive_replicas,
        regions: vec![],
        link_latencies: vec![],
        addresses: vec![],
        config_toml: String::new(),
    }
}
