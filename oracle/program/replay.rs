//! The programs under comparison: call lines in, answer lines out.
use std::io::{self, Read, Write};
use std::process::{Command, Stdio};

/// The first byte that differs from the expected answers, and the line that the program printed there.
pub struct Difference {
    pub position: usize,
    pub printed: Vec<u8>,
}

/// The output beside what is expected, read as it comes.
fn first_difference(mut output: impl Read, expected: &[u8]) -> io::Result<Option<Difference>> {
    let mut position = 0;
    let mut buffer = vec![0; 1 << 16];
    loop {
        let count = output.read(&mut buffer)?;
        let got = &buffer[..count];
        let wanted = &expected[position..expected.len().min(position + count)];
        if count == 0 && position == expected.len() {
            return Ok(None);
        }
        if got == wanted && count > 0 {
            position += count;
            continue;
        }
        let equal = got.iter().zip(wanted).take_while(|(got, wanted)| got == wanted).count();
        position += equal;
        let start = expected[..position].iter().rposition(|byte| *byte == b'\n').map_or(0, |end| end + 1);
        let mut printed = [&expected[start..position], &got[equal..]].concat();
        // the rest of the line may be short of the buffer's end
        let _ = output.take(1 << 16).read_to_end(&mut printed);
        let end = printed.iter().position(|byte| *byte == b'\n').unwrap_or(printed.len());
        printed.truncate(end);
        return Ok(Some(Difference { position, printed }));
    }
}

/// Runs the program on the lines. One thread writes while another reads, so that neither pipe fills up and stops both sides.
pub fn compare(program: &str, lines: &[u8], expected: &[u8]) -> io::Result<Option<Difference>> {
    let mut child = Command::new(program).stdin(Stdio::piped()).stdout(Stdio::piped()).spawn()?;
    let mut input = child.stdin.take().unwrap();
    let output = child.stdout.take().unwrap();
    let difference = std::thread::scope(|scope| {
        scope.spawn(move || {
            // where the program has ended early its output shows it
            let _ = input.write_all(lines);
        });
        let difference = first_difference(output, expected);
        if !matches!(difference, Ok(None)) {
            let _ = child.kill();
        }
        difference
    })?;
    let status = child.wait()?;
    if difference.is_none() && !status.success() {
        return Ok(Some(Difference { position: expected.len(), printed: format!("({status})").into_bytes() }));
    }
    Ok(difference)
}

/// Runs each program on the lines, beside each other. The first that differs, with its difference.
pub fn compare_all<'a>(programs: &'a [String], lines: &[u8], expected: &[u8]) -> io::Result<Option<(&'a str, Difference)>> {
    let compared: Vec<_> = std::thread::scope(|scope| {
        let running: Vec<_> = programs.iter().map(|program| scope.spawn(|| compare(program, lines, expected))).collect();
        running.into_iter().map(|one| one.join().expect("a comparison panicked")).collect()
    });
    for (program, difference) in programs.iter().zip(compared) {
        if let Some(difference) = difference? {
            return Ok(Some((program, difference)));
        }
    }
    Ok(None)
}
