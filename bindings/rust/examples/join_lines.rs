//! Answers lines `join PLACES s v .. | s v ..` on standard input, a line each, through the library: how many entries the join has and each slot with its value,
//! or `refused N`; `bad line` for a line that is none. tools/joins.sh compares it with the answers of tools/planning_lines.py.
use chanbook_shard::catch_up::{Entries, join_into};
use std::io::{BufRead, Write};

/// More bytes than this, without the LF, are a bad line.
const LONGEST: usize = 1 << 20;

/// A number of 64 bits in decimal digits.
fn number(field: &[u8]) -> Option<u64> {
    let text = std::str::from_utf8(field).ok()?;
    if text.is_empty() || !text.bytes().all(|byte| byte.is_ascii_digit()) {
        return None;
    }
    text.parse().ok()
}

/// Slots and values of fields that stand in turn.
fn list(fields: &[&[u8]]) -> Option<(Vec<u64>, Vec<u64>)> {
    let numbers: Vec<u64> = fields.iter().map(|field| number(field)).collect::<Option<_>>()?;
    if numbers.len() % 2 != 0 {
        return None;
    }
    Some(numbers.chunks(2).map(|pair| (pair[0], pair[1])).unzip())
}

fn answer(line: &[u8]) -> Option<String> {
    let fields: Vec<&[u8]> = line.split(|byte| *byte == b' ').collect();
    let bar = fields.iter().position(|field| *field == b"|")?;
    if line.len() > LONGEST || fields[0] != b"join" || bar < 2 {
        return None;
    }
    let lent = number(fields[1])?.min(8200) as usize;
    let (a, b) = (list(&fields[2..bar])?, list(&fields[bar + 1..])?);
    let (mut slots, mut values) = (vec![0; lent], vec![0; lent]);
    let lists = [&a, &b].map(|l| Entries { slots: &l.0, values: &l.1 });
    Some(match join_into(lists[0], lists[1], &mut slots, &mut values) {
        Ok(count) => slots.iter().zip(&values).take(count).fold(count.to_string(), |text, (slot, value)| format!("{text} {slot} {value}")),
        Err(refusal) => format!("refused {}", refusal.number()),
    })
}

fn main() {
    let out = &mut std::io::stdout().lock();
    for line in std::io::stdin().lock().split(b'\n') {
        let text = answer(&line.expect("standard input")).unwrap_or("bad line".to_string());
        writeln!(out, "{text}").expect("standard output");
    }
}
