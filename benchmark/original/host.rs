//! Where the messages of upstream end: dropped, or kept for the members of a slot cycle.
use crate::message::Message;
use std::cell::{Cell, RefCell};
use tokio_util::bytes::Bytes;

/// A message to one process, or to all but its source; or the bytes of one, to one process.
pub enum Kept {
    Message(Message, Option<usize>, usize),
    Frame(Bytes, usize),
}

thread_local! {
    /// Whether messages are kept. Only a slot cycle keeps them.
    pub static KEEP: Cell<bool> = const { Cell::new(false) };
    pub static KEPT: RefCell<Vec<Kept>> = const { RefCell::new(Vec::new()) };
    /// How many were handed over.
    pub static COUNT: Cell<usize> = const { Cell::new(0) };
}

#[inline]
fn hand_over(kept: Kept) {
    if KEEP.get() {
        KEPT.with_borrow_mut(|all| all.push(kept));
    } else {
        COUNT.set(COUNT.get() + 1);
        std::hint::black_box(&kept);
    }
}

#[inline]
pub fn sent(message: Message, to: Option<usize>, source: usize) {
    hand_over(Kept::Message(message, to, source));
}

#[inline]
pub fn sent_frame(bytes: Bytes, to: usize) {
    hand_over(Kept::Frame(bytes, to));
}

/// Debian's tokio has no `Receiver::is_empty`; `Consensus::run` uses it, which the benchmark never runs.
pub trait IsEmpty {
    fn is_empty(&self) -> bool;
}

impl<T> IsEmpty for tokio::sync::mpsc::Receiver<T> {
    fn is_empty(&self) -> bool {
        false
    }
}
