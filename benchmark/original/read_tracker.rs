//! The open reads of upstream, copied and put back. A command's `shard` is the host's alone, so it carries the tag.
use super::{ReadOnlyCommand, ReadTracker};
use crate::consensus::command::Command;
use crate::consensus::message::ReadId;

#[derive(Clone, PartialEq)]
pub struct Read {
    id: usize,
    tag: usize,
    arrival_slot: usize,
    ready_count: usize,
    local_ready: bool,
}

#[derive(Clone, PartialEq)]
pub struct Reads {
    next_id: usize,
    pub open: Vec<Read>,
}

pub fn command(tag: usize, arrival_slot: usize) -> Command {
    Command { requester: 0, shard: tag, command: vec![], read_only: true, arrival_slot, report: None }
}

pub fn copied(tracker: &ReadTracker) -> Reads {
    let open = tracker.read_commands.iter().map(|(id, read)| Read {
        id: id.0,
        tag: read.command.shard,
        arrival_slot: read.command.arrival_slot,
        ready_count: read.ready_count,
        local_ready: read.local_ready,
    });
    Reads { next_id: tracker.next_id, open: open.collect() }
}

pub fn put_back(tracker: &mut ReadTracker, reads: &Reads) {
    if copied(tracker) == *reads {
        return;
    }
    tracker.next_id = reads.next_id;
    tracker.read_commands.clear();
    for read in &reads.open {
        let open =
            ReadOnlyCommand { command: command(read.tag, read.arrival_slot), ready_count: read.ready_count, local_ready: read.local_ready };
        tracker.read_commands.insert(ReadId(read.id), open);
    }
}
