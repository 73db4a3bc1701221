//! The host's part of a call: what it says of the values, and a record of what the engine hands to the sinks and of the last panic.
use crate::consensus::message::ConsensusMessage;
use crate::message::Message;
use std::cell::{Cell, RefCell};
use std::collections::BTreeMap;
use std::sync::Mutex;

#[derive(Clone, Copy, Default)]
pub struct Requesters {
    pub message_v: Option<usize>,
    pub of_message: Option<usize>,
    pub of_held: Option<usize>,
}

pub struct Sent {
    pub destination: Option<usize>,
    pub first: Option<usize>,
    pub message: ConsensusMessage,
}

#[derive(Clone, Default)]
pub struct Panic {
    pub text: String,
    pub file: String,
    pub line: u32,
}

/// How often each panic of the engine was met, by the name of the file and the line.
static PANIC_PLACES: Mutex<BTreeMap<(String, u32), u64>> = Mutex::new(BTreeMap::new());

pub fn panic_places() -> BTreeMap<(String, u32), u64> {
    PANIC_PLACES.lock().unwrap().clone()
}

thread_local! {
    pub static REQUESTERS: Cell<Requesters> = Cell::new(Requesters::default());
    pub static SENT: RefCell<Vec<Sent>> = const { RefCell::new(Vec::new()) };
    pub static PANIC: RefCell<Panic> = RefCell::new(Panic::default());
    /// Whether the engine is at work on this thread.
    pub static IN_CALL: Cell<bool> = const { Cell::new(false) };
}

/// In place of `get_requester`: the answer for the message's value where v is that value, and else the answer for the value in the held
/// promise.
pub fn requester(v: usize) -> Option<usize> {
    let requesters = REQUESTERS.get();
    if requesters.message_v == Some(v) { requesters.of_message } else { requesters.of_held }
}

pub fn record(message: &Message, destination: Option<usize>, first: Option<usize>) {
    if let Message::ConsensusM { msg, .. } = message {
        let message = msg.clone();
        SENT.with_borrow_mut(|sent| sent.push(Sent { destination, first, message }));
    }
}

/// Panics of the engine are the Rust's refusals: each is kept to be named, and not printed.
pub fn keep_panics() {
    std::panic::set_hook(Box::new(|info| {
        if !IN_CALL.get() {
            return eprintln!("{info}");
        }
        let payload = info.payload();
        let text = match (payload.downcast_ref::<&str>(), payload.downcast_ref::<String>()) {
            (Some(text), _) => text.to_string(),
            (_, Some(text)) => text.clone(),
            _ => String::new(),
        };
        let (file, line) = info.location().map(|place| (place.file().to_string(), place.line())).unwrap_or_default();
        let name = file.rsplit('/').next().unwrap_or_default().to_string();
        *PANIC_PLACES.lock().unwrap().entry((name, line)).or_default() += 1;
        PANIC.set(Panic { text, file, line });
    }));
}

/// Debian's tokio has no `Receiver::is_empty`; `Consensus::run` uses it, which the oracle never runs.
pub trait IsEmpty {
    fn is_empty(&self) -> bool;
}

impl<T> IsEmpty for tokio::sync::mpsc::Receiver<T> {
    fn is_empty(&self) -> bool {
        false
    }
}
