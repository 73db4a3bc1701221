//! Prints, in Markdown, what this engine copies in each kind of call: the calls of memcpy, memmove and memset, and their bytes. Copies that the
//! compiler makes with moves alone are not counted.
#[path = "../cases.rs"]
mod cases;

use chanbook_shard::{GroupSettings, LAST_SLOT, Shard};
use chanbook_shard::sys::{self, FlatCall, FlatReply};
use std::ffi::{c_int, c_void};
use std::sync::atomic::{AtomicBool, AtomicUsize, Ordering};

static COUNTS: AtomicBool = AtomicBool::new(false);
static COPIES: AtomicUsize = AtomicUsize::new(0);
static BYTES: AtomicUsize = AtomicUsize::new(0);

fn count(bytes: usize) {
    if COUNTS.load(Ordering::Relaxed) {
        COPIES.fetch_add(1, Ordering::Relaxed);
        BYTES.fetch_add(bytes, Ordering::Relaxed);
    }
}

unsafe extern "C" {
    fn __real_memcpy(to: *mut c_void, from: *const c_void, bytes: usize) -> *mut c_void;
    fn __real_memmove(to: *mut c_void, from: *const c_void, bytes: usize) -> *mut c_void;
    fn __real_memset(to: *mut c_void, byte: c_int, bytes: usize) -> *mut c_void;
}

// Sound: each call goes on as it came.
#[unsafe(no_mangle)]
unsafe extern "C" fn __wrap_memcpy(to: *mut c_void, from: *const c_void, bytes: usize) -> *mut c_void {
    count(bytes);
    unsafe { __real_memcpy(to, from, bytes) }
}

#[unsafe(no_mangle)]
unsafe extern "C" fn __wrap_memmove(to: *mut c_void, from: *const c_void, bytes: usize) -> *mut c_void {
    count(bytes);
    unsafe { __real_memmove(to, from, bytes) }
}

#[unsafe(no_mangle)]
unsafe extern "C" fn __wrap_memset(to: *mut c_void, byte: c_int, bytes: usize) -> *mut c_void {
    count(bytes);
    unsafe { __real_memset(to, byte, bytes) }
}

fn main() {
    println!("| call | copies | bytes |");
    println!("|---|---|---|");
    let mut reply = FlatReply::default();
    for case in cases::all() {
        let mut shard = Shard::new(&GroupSettings::new(case.settings.clone(), LAST_SLOT));
        for call in &case.before {
            shard.call(*call);
        }
        let mut flat = *shard.flat();
        let call = FlatCall::from(case.call);
        (COPIES.store(0, Ordering::Relaxed), BYTES.store(0, Ordering::Relaxed));
        COUNTS.store(true, Ordering::Relaxed);
        sys::chanbook_call(&mut flat, &call, &mut reply);
        COUNTS.store(false, Ordering::Relaxed);
        assert_eq!(reply.outcome != 0, case.refused, "{}", case.name);
        println!("| {} | {} | {} |", case.name, COPIES.load(Ordering::Relaxed), BYTES.load(Ordering::Relaxed));
    }
}
