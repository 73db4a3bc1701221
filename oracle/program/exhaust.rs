//! `oracle exhaust`: from every state that the calls of a small alphabet reach in slot 0, every call of the alphabet, beside
//! programs that read call lines and print answers.
use crate::calls::{Call, Frame, MODES, Message, Mode, Promise, Round, Settings, State, Words};
use crate::compare;
use crate::counts::Counts;
use crate::recording::{Recorder, Recording};
use crate::replay;
use std::collections::{HashSet, VecDeque};
use std::io;
use std::time::{Duration, Instant};

pub const USAGE: &str = "oracle exhaust --replay PROGRAM [--replay PROGRAM ..] [--processes 2 | 3] [--mode NAME] [--states N] [--seconds N]";

/// Lines of one run of a program.
const BLOCK: usize = 20_000;
const A_DAY: u64 = 86_400;
const VALUES: [usize; 2] = [1, 2];

pub struct Options {
    programs: Vec<String>,
    processes: usize,
    mode: Option<Mode>,
    /// At most so many states for each settings.
    states: usize,
    /// At most so long for each mode.
    seconds: u64,
}

impl Options {
    pub fn read(arguments: &[String]) -> Option<Options> {
        let mut options = Options { programs: vec![], processes: 2, mode: None, states: usize::MAX, seconds: A_DAY };
        for pair in arguments.chunks(2) {
            let [name, value] = pair else { return None };
            match name.as_str() {
                "--replay" => options.programs.push(value.clone()),
                "--processes" => options.processes = value.parse().ok().filter(|count| (2..=3).contains(count))?,
                "--mode" => options.mode = Some(*MODES.iter().find(|mode| format!("{mode:?}") == *value)?),
                "--states" => options.states = value.parse().ok()?,
                "--seconds" => options.seconds = value.parse().ok()?,
                _ => return None,
            }
        }
        (!options.programs.is_empty()).then_some(options)
    }
}

// ---- the settings

fn live_sets(processes: usize) -> Vec<(usize, u64)> {
    if processes == 2 { vec![(2, 0b11), (2, 0b01), (1, 0b10)] } else { vec![(3, 0b111), (3, 0b011), (2, 0b011), (2, 0b110)] }
}

fn fixed_quorums(mode: Mode, processes: usize) -> Vec<Option<u64>> {
    match (mode, processes) {
        (Mode::SwiftPaxos, 2) => vec![None, Some(0b01), Some(0b10)],
        (Mode::SwiftPaxos, _) => vec![None, Some(0b011), Some(0b110)],
        _ => vec![None],
    }
}

/// None, or each process.
fn optional_processes(processes: usize) -> Vec<Option<usize>> {
    std::iter::once(None).chain((0..processes).map(Some)).collect()
}

/// Every settings of the mode in which all values have one committer, or none, and all leaders one delegate. What the mode does not read is fixed.
fn all_settings(mode: Mode, processes: usize) -> Vec<Settings> {
    let leaders = if mode.is_multi_paxos() || mode == Mode::SwiftPaxos { processes } else { 1 };
    let has_committers = matches!(mode, Mode::MultiPaxos3P | Mode::SwiftPaxos);
    let committers = if has_committers { optional_processes(processes) } else { vec![None] };
    let delegates = if mode == Mode::Pando { processes } else { 1 };
    let mut all = vec![];
    for (replica_count, alive_replicas) in live_sets(processes) {
        for my_pid in 0..processes {
            for first_leader in 0..leaders {
                for committer in &committers {
                    for delegate in 0..delegates {
                        all.extend(fixed_quorums(mode, processes).into_iter().map(|quorum| Settings {
                            process_count: processes,
                            replica_count,
                            my_pid,
                            alive_replicas,
                            first_leader,
                            mode,
                            quorum,
                            has_committers: committer.is_some(),
                            committers: vec![committer.unwrap_or(0); processes],
                            delegates: vec![delegate; processes],
                            whole_mhz_from: 0,
                            windows: vec![],
                        }));
                    }
                }
            }
        }
    }
    all
}

// ---- the alphabet

/// The first round of each leader, and a later one of leader 0.
fn rounds(processes: usize) -> Vec<Round> {
    let first = (0..processes).map(|leader| Round { group: 0, leader });
    first.chain([Round { group: 1, leader: 0 }]).collect()
}

fn promises(processes: usize, v: usize) -> Vec<Promise> {
    let fast = (0..processes).map(|proposer| Promise::Fast { proposer, v });
    let accept_rounds = std::iter::once(None).chain(rounds(processes).into_iter().map(Some));
    fast.chain(accept_rounds.map(|accept_round| Promise::Paxos { accept_round, v })).collect()
}

fn messages(processes: usize) -> Vec<Message> {
    let slot = 0;
    let mut messages = vec![Message::ForwardRequest { v: VALUES[0] }];
    for v in VALUES {
        messages.push(Message::Commit { slot, v });
        for round in rounds(processes) {
            messages.push(Message::Accept { slot, round, v });
            messages.extend(promises(processes, v).into_iter().map(|promise| Message::Prepare { slot, round, promise }));
        }
    }
    messages
}

/// The requesters that the host may name, as far as the message's handler asks for them: that of the message's value, or that of the held one, which is
/// asked for a Commit that EPaxos sends.
fn requesters(settings: &Settings, message: &Message) -> Vec<(Option<usize>, Option<usize>)> {
    let is_prepare = matches!(message, Message::Prepare { .. });
    let processes = |asked: bool| 0..if asked { settings.process_count } else { 0 };
    let of_message = processes(is_prepare || matches!(message, Message::Accept { .. })).map(|process| (Some(process), None));
    let of_held = processes(is_prepare && settings.mode == Mode::EPaxos).map(|process| (None, Some(process)));
    std::iter::once((None, None)).chain(of_message).chain(of_held).collect()
}

fn words(settings: &Settings, message: &Message) -> Vec<Words> {
    let mut words = vec![];
    for value_held in [true, false] {
        let said = |(requester, held_requester)| Words { value_held, requester, fast: true, held_requester };
        words.extend(requesters(settings, message).into_iter().map(said));
    }
    words
}

fn alphabet(settings: &Settings) -> Vec<Call> {
    let mut calls: Vec<Call> = VALUES.into_iter().map(Call::Propose).collect();
    for message in messages(settings.process_count) {
        for src in 0..settings.process_count {
            let frame = Frame { src, last_v: None, message };
            calls.extend(words(settings, &message).into_iter().map(|words| Call::Receive(frame, words)));
        }
    }
    calls
}

// ---- the states

struct Explorer<'a> {
    options: &'a Options,
    settings: Settings,
    alphabet: Vec<Call>,
    recorder: Recorder,
    seen: HashSet<State>,
    queue: VecDeque<State>,
    counts: Counts,
}

/// Whether no difference was found.
type Equal = bool;

impl Explorer<'_> {
    fn new<'a>(options: &'a Options, settings: &Settings) -> Explorer<'a> {
        let mut explorer = Explorer {
            options,
            settings: settings.clone(),
            alphabet: alphabet(settings),
            recorder: Recorder::new(settings),
            seen: HashSet::new(),
            queue: VecDeque::new(),
            counts: Counts::default(),
        };
        explorer.reached();
        explorer
    }

    /// Keeps the state that the shard is in, if it is new and of slot 0.
    fn reached(&mut self) {
        let mut state = self.recorder.state().expect("the settings are within the limits").clone();
        // places behind the process count are never looked at
        state.proposers.truncate(self.settings.process_count);
        if state.slot == 0 && self.seen.len() < self.options.states && !self.seen.contains(&state) {
            self.seen.insert(state.clone());
            self.queue.push_back(state);
        }
    }

    fn every_call(&mut self, state: &State) {
        let mut moved = true;
        for call in self.alphabet.clone() {
            if moved {
                self.recorder.set_state(state);
            }
            moved = self.recorder.call(&call).is_ok();
            if moved {
                self.reached();
            }
        }
    }

    fn compare(&mut self) -> io::Result<Equal> {
        let recording: Recording = std::mem::replace(&mut self.recorder, Recorder::new(&self.settings)).recording;
        self.counts.add(&recording.counts);
        match replay::compare_all(&self.options.programs, &recording.lines, &recording.answers)? {
            Some((program, difference)) => compare::report(program, &recording, &difference).map(|()| false),
            None => Ok(true),
        }
    }

    fn run(&mut self, end: Instant) -> io::Result<Equal> {
        while let Some(state) = self.queue.pop_front() {
            self.every_call(&state);
            let last = self.queue.is_empty() || Instant::now() > end;
            if (last || self.recorder.recording.ends.len() > BLOCK) && !self.compare()? {
                return Ok(false);
            }
            if last {
                break;
            }
        }
        Ok(true)
    }

    /// Whether every state was looked at.
    fn is_whole(&self) -> bool {
        self.queue.is_empty() && self.seen.len() < self.options.states
    }
}

/// What was looked at in one mode.
#[derive(Default)]
struct Explored {
    settings: usize,
    whole: usize,
    states: usize,
    counts: Counts,
}

fn explore_mode(options: &Options, mode: Mode) -> io::Result<Option<Explored>> {
    let end = Instant::now() + Duration::from_secs(options.seconds);
    let mut explored = Explored::default();
    for settings in all_settings(mode, options.processes) {
        let mut explorer = Explorer::new(options, &settings);
        if !explorer.run(end)? {
            return Ok(None);
        }
        explored.settings += 1;
        explored.whole += explorer.is_whole() as usize;
        explored.states += explorer.seen.len() - explorer.queue.len();
        explored.counts.add(&explorer.counts);
        if Instant::now() > end {
            break;
        }
    }
    Ok(Some(explored))
}

/// Whether no difference was found.
pub fn run(options: &Options) -> io::Result<bool> {
    let start = Instant::now();
    let mut counts = Counts::default();
    for mode in MODES.into_iter().filter(|mode| options.mode.is_none_or(|only| *mode == only)) {
        let Some(explored) = explore_mode(options, mode)? else { return Ok(false) };
        let (all, lines) = (all_settings(mode, options.processes).len(), explored.counts.lines());
        println!(
            "{mode:?}: {} of {all} settings, {} of them whole, {} states, {lines} lines",
            explored.settings, explored.whole, explored.states
        );
        counts.add(&explored.counts);
    }
    println!("{counts}");
    compare::print_panics();
    for program in &options.programs {
        println!("{program}, {} processes: {} lines, no difference, {} seconds", options.processes, counts.lines(), start.elapsed().as_secs());
    }
    Ok(true)
}
