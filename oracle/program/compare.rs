//! `oracle compare`: long random runs beside programs that read call lines and print answers.
use crate::calls::{MODES, Mode};
use crate::counts::Counts;
use crate::generate;
use crate::host;
use crate::random::Random;
use crate::recording::Recording;
use crate::replay;
use crate::shrink;
use std::io;
use std::sync::mpsc::{SyncSender, sync_channel};
use std::time::{Duration, Instant};

pub const USAGE: &str = "oracle compare --replay PROGRAM [--replay PROGRAM ..] (--seconds N | --calls N) [--seed S] [--mode NAME]";

/// Lines of one run of a program. A difference is looked for within them, so they bound the work of shortening it.
const BLOCK: usize = 20_000;

pub struct Options {
    programs: Vec<String>,
    seconds: u64,
    calls: u64,
    seed: u64,
    mode: Option<Mode>,
}

impl Options {
    pub fn read(arguments: &[String]) -> Option<Options> {
        let mut options = Options { programs: vec![], seconds: u64::MAX, calls: u64::MAX, seed: 1, mode: None };
        for pair in arguments.chunks(2) {
            let [name, value] = pair else { return None };
            match name.as_str() {
                "--replay" => options.programs.push(value.clone()),
                "--seconds" => options.seconds = value.parse().ok()?,
                "--calls" => options.calls = value.parse().ok()?,
                "--seed" => options.seed = value.parse().ok()?,
                "--mode" => options.mode = Some(*MODES.iter().find(|mode| format!("{mode:?}") == *value)?),
                _ => return None,
            }
        }
        let bounded = options.seconds < u64::MAX || options.calls < u64::MAX;
        (!options.programs.is_empty() && bounded).then_some(options)
    }
}

/// Blocks of calls with the Rust's answers, made while the programs work on the block before.
fn make_blocks(seed: u64, mode: Option<Mode>, blocks: SyncSender<Recording>) {
    for block in 0.. {
        let mut random = Random::new(seed.wrapping_mul(1_000_003).wrapping_add(block));
        if blocks.send(generate::recording(&mut random, mode, BLOCK)).is_err() {
            return;
        }
    }
}

fn print_lines(title: &str, lines: &[u8]) {
    println!("{title}\n{}", String::from_utf8_lossy(lines).trim_end_matches('\n'));
}

pub fn report(program: &str, recording: &Recording, difference: &replay::Difference) -> io::Result<()> {
    println!("the program that differs: {program}");
    match shrink::shortest(program, recording, difference.position)? {
        Some(short) => {
            let lines = short.parts.concat();
            let count = lines.iter().filter(|byte| **byte == b'\n').count();
            print_lines(&format!("shortest run, {count} lines:"), &lines);
            print_lines("the Rust:", &short.expected);
            print_lines("the program:", &short.printed);
        }
        None => {
            let last = recording.line_at(difference.position);
            print_lines("not repeated on a new process; the line and both answers:", recording.line(last));
            print_lines("the Rust:", recording.answer(last));
            print_lines("the program:", &difference.printed);
        }
    }
    Ok(())
}

/// The places of upstream, with the edits of the build, at which the Rust met a panic.
pub fn print_panics() {
    println!("panics that the Rust met:");
    for ((file, line), count) in host::panic_places() {
        println!("{count:>13}  {file}:{line}");
    }
}

/// Whether no difference was found.
pub fn run(options: &Options) -> io::Result<bool> {
    let start = Instant::now();
    let mut counts = Counts::default();
    let (sender, blocks) = sync_channel(2);
    let (seed, mode) = (options.seed, options.mode);
    std::thread::spawn(move || make_blocks(seed, mode, sender));
    while counts.lines() < options.calls && start.elapsed() < Duration::from_secs(options.seconds) {
        let recording = blocks.recv().expect("the Rust's side stopped");
        if let Some((program, difference)) = replay::compare_all(&options.programs, &recording.lines, &recording.answers)? {
            let call = counts.lines() + recording.line_at(difference.position) as u64 + 1;
            println!("difference at call {call} of seed {}", options.seed);
            report(program, &recording, &difference)?;
            return Ok(false);
        }
        counts.add(&recording.counts);
    }
    let seconds = start.elapsed().as_secs_f64();
    println!("{counts}");
    print_panics();
    let rate = counts.lines() as f64 / seconds;
    for program in &options.programs {
        println!("{program}, seed {}: {} lines, no difference, {rate:.0} lines a second", options.seed, counts.lines());
    }
    Ok(true)
}
