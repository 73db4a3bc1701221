//! `oracle ties`: random legal runs of groups of the Rust in EPaxos, in which each tie of an adoption goes to one of the best that is drawn; agreement
//! and validity are checked on each run. (Here the Rust alone runs: the engine takes the lowest of the best.)
use crate::any_settings::{self, Sizes};
use crate::calls::{Mode, Settings};
use crate::counts::Counts;
use crate::group::{Chances, Group};
use crate::random::Random;
use std::time::{Duration, Instant};

pub const USAGE: &str = "oracle ties --seconds N [--seed S]";

pub struct Options {
    seconds: u64,
    seed: u64,
}

impl Options {
    pub fn read(arguments: &[String]) -> Option<Options> {
        let mut options = Options { seconds: 0, seed: 1 };
        for pair in arguments.chunks(2) {
            let [name, value] = pair else { return None };
            match name.as_str() {
                "--seconds" => options.seconds = value.parse().ok()?,
                "--seed" => options.seed = value.parse().ok()?,
                _ => return None,
            }
        }
        (options.seconds > 0).then_some(options)
    }
}

/// A tie takes three members, and answers for two proposers.
fn any_group(random: &mut Random) -> Settings {
    loop {
        let settings = any_settings::settings(random, Mode::EPaxos, Sizes::Small);
        if settings.process_count >= 3 {
            return settings;
        }
    }
}

/// What the runs met.
#[derive(Default)]
struct Met {
    runs: u64,
    slots: u64,
    counts: Counts,
}

/// What the run breaks, if it does.
fn one_run(random: &mut Random, met: &mut Met) -> Option<String> {
    let settings = any_group(random);
    let chances = Chances::any(random, settings.process_count, false);
    let mut group = Group::new(&settings);
    group.run_with_any_tie(random, &chances);
    let broken = group.claim.broken.take();
    met.runs += 1;
    met.slots += group.claim.decided() as u64;
    let recording = group.into_recording();
    met.counts.add(&recording.counts);
    broken.map(|fault| format!("{fault}\n{}", String::from_utf8_lossy(&recording.lines)))
}

/// Whether every run agrees.
pub fn run(options: &Options) -> bool {
    let start = Instant::now();
    let mut random = Random::new(options.seed);
    let mut met = Met::default();
    while start.elapsed() < Duration::from_secs(options.seconds) {
        if let Some(broken) = one_run(&mut random, &mut met) {
            println!("run {} of seed {}: {broken}", met.runs, options.seed);
            return false;
        }
    }
    let epaxos = met.counts.modes[Mode::EPaxos as usize];
    println!("seed {}: {} runs, {} calls, {} slots decided, all agree", options.seed, met.runs, met.counts.lines(), met.slots);
    println!("commits {}, of them fast {}", epaxos.commits, epaxos.fast_commits);
    println!(
        "adoptions {}, of them ties {}, to the lowest {}, to another {}",
        epaxos.adoptions,
        epaxos.ties,
        epaxos.ties - epaxos.other_ties,
        epaxos.other_ties
    );
    true
}
