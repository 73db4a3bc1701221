//! The assertion at which the last call met a panic of the Rust.
use crate::host;

/// The files in which a call may meet one.
const SOURCES: [(&str, &str); 5] = [
    ("round_state.rs", include_str!("consensus/paxos_family/round_state.rs")),
    ("paxos_family.rs", include_str!("consensus/paxos_family.rs")),
    ("read_tracker.rs", include_str!("consensus/read_tracker.rs")),
    ("consensus.rs", include_str!("consensus.rs")),
    ("multi_sink.rs", include_str!("multi_sink.rs")),
];

/// The expression that begins on that line, up to its last bracket.
fn expression(file: &str, line: u32) -> String {
    let source = SOURCES.iter().find(|(name, _)| file.ends_with(name)).map_or("", |(_, source)| source);
    let mut text = String::new();
    for part in source.lines().skip((line as usize).saturating_sub(1)) {
        text.push_str(part.trim());
        if text.matches('(').count() <= text.matches(')').count() {
            break;
        }
        text.push(' ');
    }
    text
}

/// The text of the panic and the expression; empty where the call met none.
pub fn asserted() -> String {
    host::PANIC.with_borrow(|panic| match panic.line {
        0 => String::new(),
        line => format!("{} {}", panic.text, expression(&panic.file, line)),
    })
}
