//! The open reads as plain numbers. A command's `requester` and `shard` are the host's alone, so they carry the id and the tag.
use super::{ReadOnlyCommand, ReadTracker};
use crate::calls::OpenRead;
use crate::consensus::command::Command;
use crate::consensus::message::ReadId;

pub fn command(id: usize, tag: usize, arrival_slot: usize) -> Command {
    Command { requester: id, shard: tag, command: vec![], read_only: true, arrival_slot, report: None }
}

pub fn open_count(tracker: &ReadTracker) -> usize {
    tracker.read_commands.len()
}

pub fn open_reads(tracker: &ReadTracker) -> Vec<OpenRead> {
    let open = tracker.read_commands.iter();
    open.map(|(id, read)| OpenRead {
        id: id.0,
        tag: read.command.shard,
        arrival_slot: read.command.arrival_slot,
        ready_count: read.ready_count,
        local_ready: read.local_ready,
    })
    .collect()
}

pub fn set_reads(tracker: &mut ReadTracker, next_id: usize, reads: &[OpenRead]) {
    tracker.next_id = next_id;
    tracker.read_commands.clear();
    for read in reads {
        let open = ReadOnlyCommand {
            command: command(read.id, read.tag, read.arrival_slot),
            ready_count: read.ready_count,
            local_ready: read.local_ready,
        };
        tracker.read_commands.insert(ReadId(read.id), open);
    }
}
