//! From a recording on which the program differs to a short run that still differs.
use crate::answer::Place;
use crate::recording::Recording;
use crate::replay;
use std::io;

/// A run in parts that are left out or kept whole: lines, or segments.
type Parts = Vec<Vec<u8>>;

pub struct Short {
    pub parts: Parts,
    pub expected: Vec<u8>,
    pub printed: Vec<u8>,
}

/// The run up to the first part that is answered otherwise, if there is one. The Rust and the program both begin anew.
fn differs(program: &str, parts: &[Vec<u8>]) -> io::Result<Option<Short>> {
    let mut place = Place::default();
    let (mut expected, mut ends) = (vec![], vec![]);
    for part in parts {
        for line in part.split_inclusive(|byte| *byte == b'\n') {
            place.text(line.strip_suffix(b"\n").unwrap_or(line), &mut expected);
        }
        ends.push(expected.len());
    }
    let Some(difference) = replay::compare(program, &parts.concat(), &expected)? else { return Ok(None) };
    let last = ends.iter().position(|end| *end > difference.position).unwrap_or(parts.len().saturating_sub(1));
    let line_start = expected[..difference.position].iter().rposition(|byte| *byte == b'\n').map_or(0, |end| end + 1);
    let line = expected[line_start..].split(|byte| *byte == b'\n').next().unwrap_or_default().to_vec();
    let parts = parts.iter().take(last + 1).cloned().collect();
    Ok(Some(Short { parts, expected: line, printed: difference.printed }))
}

/// Leaves out ever smaller stretches of the run while a difference stays.
fn shorten(program: &str, mut short: Short) -> io::Result<Short> {
    let mut stretch = short.parts.len() / 2;
    while stretch > 0 {
        let mut first = 0;
        while first + stretch <= short.parts.len() {
            let rest = [&short.parts[..first], &short.parts[first + stretch..]].concat();
            match differs(program, &rest)? {
                Some(shorter) => short = shorter,
                None => first += stretch,
            }
        }
        stretch = if stretch == 1 { 0 } else { stretch.div_ceil(2) };
    }
    Ok(short)
}

/// The shortest run for a difference at that byte of the recording's answers: lines of one segment, or, where a new shard makes the difference go
/// away, whole segments of the recording. (Lines of several segments would put a state under settings that it was not made for.)
pub fn shortest(program: &str, recording: &Recording, position: usize) -> io::Result<Option<Short>> {
    let last = recording.line_at(position);
    let starts: Vec<usize> = recording.segments.iter().copied().filter(|first| *first <= last).collect();
    let segment = starts.last().copied().unwrap_or(0);
    let lines: Parts = (segment..=last).map(|line| recording.line(line).to_vec()).collect();
    if let Some(short) = differs(program, &lines)? {
        return shorten(program, short).map(Some);
    }
    let ends = starts.iter().skip(1).copied().chain([last + 1]);
    let segments: Parts =
        starts.iter().zip(ends).map(|(first, end)| (*first..end).flat_map(|line| recording.line(line).to_vec()).collect()).collect();
    differs(program, &segments)?.map(|short| shorten(program, short)).transpose()
}
