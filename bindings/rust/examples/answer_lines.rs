//! Answers call lines on standard input with answer lines (docs/ORACLE.md), by `Shard`, over the libraries that hosts link. `oracle compare` runs it beside the
//! Rust of kcensus:
//!
//!     cargo run --offline --example answer_lines < ../../crates/replay/stdin | cmp - ../../crates/replay/stdout
#[allow(dead_code)]
#[path = "../../../oracle/program/calls.rs"]
mod calls;
#[path = "../tests/lines/mod.rs"]
mod lines;
#[allow(dead_code)]
#[path = "../../../oracle/program/printer.rs"]
mod printer;
#[path = "../../../oracle/program/reader.rs"]
mod reader;

use lines::Place;
use std::io::{self, BufRead, BufReader, Write};

fn main() -> io::Result<()> {
    let mut input = BufReader::with_capacity(1 << 16, io::stdin().lock());
    let mut output = io::stdout().lock();
    let mut place = Place::default();
    let (mut line, mut answers) = (vec![], vec![]);
    while input.read_until(b'\n', &mut line)? > 0 {
        place.text(line.strip_suffix(b"\n").unwrap_or(&line), &mut answers);
        line.clear();
        if answers.len() > 1 << 16 {
            output.write_all(&answers)?;
            answers.clear();
        }
    }
    output.write_all(&answers)
}
