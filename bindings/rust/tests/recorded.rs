//! The recorded sample (docs/ORACLE.md): what `Shard` answers to each of its call lines is what the Rust of kcensus answers. Any numbers besides are tried in
//! both_ways.rs and damage.rs, and long random runs by `oracle compare`.
#[allow(dead_code)]
#[path = "../../../oracle/program/calls.rs"]
mod calls;
mod lines;
#[allow(dead_code)]
#[path = "../../../oracle/program/printer.rs"]
mod printer;
#[path = "../../../oracle/program/reader.rs"]
mod reader;

use lines::Place;

const CALLS: &[u8] = include_bytes!("../../../crates/replay/stdin");
const ANSWERS: &[u8] = include_bytes!("../../../crates/replay/stdout");

#[test]
fn every_answer_is_that_of_the_rust() {
    let mut place = Place::default();
    let mut answers = ANSWERS.split_inclusive(|byte| *byte == b'\n');
    let mut answered = 0;
    for (at, line) in CALLS.split(|byte| *byte == b'\n').enumerate() {
        let mut answer = vec![];
        place.text(line, &mut answer);
        if answer.is_empty() {
            continue;
        }
        let expected = answers.next().unwrap_or_default();
        let text = String::from_utf8_lossy;
        assert!(answer == expected, "line {}: {}\nthis crate: {}the Rust: {}", at + 1, text(line), text(&answer), text(expected));
        answered += 1;
    }
    assert_eq!(answers.next(), None, "an answer to no line");
    assert!(answered > 11_000, "{answered} lines with an answer");
}
