//! Prints, in Markdown, the bytes that a shard takes: its own place, and what it has on the heap.
use chanbook_shard::sys::FlatShard;
use chanbook_shard::{PFModeSetting, Settings};
use std::alloc::{GlobalAlloc, Layout, System};
use std::sync::atomic::{AtomicUsize, Ordering};

/// The system's allocator, and the bytes that are taken from it at the moment.
struct Counting;

static TAKEN: AtomicUsize = AtomicUsize::new(0);

// Sound: every call goes to the system's allocator as it came.
unsafe impl GlobalAlloc for Counting {
    unsafe fn alloc(&self, layout: Layout) -> *mut u8 {
        TAKEN.fetch_add(layout.size(), Ordering::Relaxed);
        unsafe { System.alloc(layout) }
    }

    unsafe fn dealloc(&self, place: *mut u8, layout: Layout) {
        TAKEN.fetch_sub(layout.size(), Ordering::Relaxed);
        unsafe { System.dealloc(place, layout) }
    }
}

#[global_allocator]
static ALLOCATOR: Counting = Counting;

/// The bytes of one shard of the original: its place and its heap.
fn original(settings: &Settings, open_reads: usize) -> usize {
    let mut shards = original_bare::Shards::new(settings);
    let before = TAKEN.load(Ordering::Relaxed);
    let place = shards.keep(open_reads);
    place + TAKEN.load(Ordering::Relaxed) - before
}

fn main() {
    println!("| processes | original, new | with 100 open reads | with 128 | this engine, always |");
    println!("|---|---|---|---|---|");
    for count in [3, 5, 7, 16, 33, 64] {
        let settings = Settings::all_live(count, 0, PFModeSetting::Paxos);
        let [new, hundred, all] = [0, 100, 128].map(|reads| original(&settings, reads));
        println!("| {count} | {new} | {hundred} | {all} | {} |", size_of::<FlatShard>());
    }
}
