//! Upstream's shard of the Paxos family, as a library for the benchmark.
#![allow(dead_code, unused_imports, unused_variables)]
mod connector;
mod consensus;
mod eval;
mod host;
mod message;
mod multi_sink;
mod topology;

pub use consensus::paxos_family::inside::{Cycle, Prepared, Shards};
