//! `oracle record`: the sample of calls that the gate replays. Every section begins with a comment line.
use crate::any_call;
use crate::any_settings::{self, Sizes};
use crate::calls::{
    Call, Date, Frame, LARGEST_NUMBER, LAST_SLOT, Line, MODES, Message, Mode, OPEN_READ_LIMIT, PLACES, Promise, Round, Settings, WINDOW_LIMIT,
    Window, Words,
};
use crate::counts::{Counts, REFUSALS};
use crate::damage;
use crate::generate;
use crate::pair_paths;
use crate::pairs;
use crate::printer::push_line;
use crate::random::Random;
use crate::recording::{Recorder, Recording};
use std::io::{self, Write};

#[derive(Default)]
struct Sample {
    text: Vec<u8>,
    counts: Counts,
}

impl Sample {
    fn title(&mut self, title: &str) {
        self.text.extend_from_slice(format!("# {title}\n").as_bytes());
    }

    fn add(&mut self, recording: Recording) {
        self.counts.add(&recording.counts);
        self.text.extend(recording.lines);
    }

    /// Lines as they stand; the first may be anything.
    fn add_text(&mut self, lines: &str) {
        let mut recorder = Recorder::default();
        for line in lines.split('\n') {
            recorder.text(line.as_bytes());
        }
        self.add(recorder.recording);
    }
}

/// Document 01's marked instances that an entry point shows, and its limits of settings.
const INSTANCES: [(&str, &str); 6] = [
    (
        "before the first settings line the shard is not made",
        "3 5\n4 1 1\n6 1 0 0 0 0 2 9 1 1 0 0 0 0\n2 0 0 0 0 0 0 0 3 0 0 0 0 0 0 0 0 0 0 0 0 0",
    ),
    (
        "replica 0 hears accept (0,2) value 9 twice from 1, then value 8 (MultiPaxos3P, leader 2, committer 0)",
        "1 5 5 0 31 2 2 0 0 1 5 0 0 0 0 0 0 0 0\n6 1 0 0 0 0 2 9 1 1 0 0 0 0\n6 1 0 0 0 0 2 9 1 1 0 0 0 0\n6 1 0 0 0 0 2 8 1 1 0 0 0 0",
    ),
    (
        "EPaxos, five: adopt 10 with scores 3 and 2; then the tie",
        "1 5 5 4 31 0 3 0 0 0 0 0 0 0\n3 40\n5 1 0 0 0 0 4 0 0 0 10 1 0 0 0 0 0\n5 2 0 0 0 0 4 0 4 0 40 1 0 0 0 0 0\n\
         1 5 5 4 31 0 3 0 0 0 0 0 0 0\n3 40\n5 1 0 0 0 0 4 0 0 0 10 1 0 0 0 0 0\n5 3 0 0 0 0 4 0 2 0 20 1 0 0 0 0 0",
    ),
    (
        "a group of one: the proposal sends Prepare; a read with quorum 1 waits for a response",
        "1 1 1 0 1 0 0 0 0 0 0 0 0 0\n3 5\n1 1 1 0 1 0 0 0 0 0 0 0 0 0\n4 7 0\n10 0 0 0 0 0 1 0 0 1 0 0",
    ),
    (
        "own slot 4: Prepare of 3 does nothing, 4 is handled, 5 is refused",
        "1 3 3 0 7 0 0 0 0 0 0 0 0 0\n2 4 0 0 0 0 0 0 3 0 0 0 0 0 0 0 0 0 0 0 0 0\n5 1 0 0 3 0 1 1 0 0 5 1 0 0 0 0 0\n\
         5 1 0 0 4 0 1 1 0 0 5 1 0 0 0 0 0\n5 1 0 0 5 0 1 1 0 0 5 1 0 0 0 0 0",
    ),
    (
        "64 processes are taken, 65 and 0 replicas refused",
        "1 64 64 63 18446744073709551615 63 0 0 0 0 0 0 0 0\n1 65 65 0 1 0 0 0 0 0 0 0 0 0\n1 5 0 0 0 0 0 0 0 0 0 0 0 0\n3 1",
    ),
];

/// Each reason of a bad line, also two in one line.
const BAD_LINES: &str = "1 3 3 0 7 0 0 0 0 0 0 0 0 0
 3 1
3 1\u{20}
3  1
3 -1
3 1.0
3,1
x
3 1\r
3 18446744073709551615
3 18446744073709551616
3 00000000000000000000000000000007
3 99999999999999999999999999 x
0
11 1
18446744073709551615
3
3 1 2
4 1
5 1 0 0 0 0 1 1 0 0 5 1 0 0 0 0
5 1 0 0 0 0 1 1 0 0 5 1 0 0 0 0 0 0
5 1 2 0 0 0 1 1 0 0 5 1 0 0 0 0 0
5 1 0 0 0 0 1 1 0 0 5 2 0 0 0 0 0
5 1 0 0 0 0 1 1 0 0 5 1 2 0 0 0 0
5 1 0 0 0 0 1 1 0 0 5 1 0 0 2 0 0
5 1 0 0 0 0 1 1 0 0 5 1 0 0 0 2 0
5 1 0 0 0 0 1 3 0 0 5 1 0 0 0 0 0
5 1 0 0 0 0 1 4 0 0 5 1 0 0 0 0 7
1 3 3 0 7 0 6 0 0 0 0 0 0 0
1 3 3 0 7 0 6 2 0 0 0 0 0 0
1 3 3 0 7 0 0 0 0 2 0 0 0 0
1 3 3 0 7 0 0 0 0 0
1 3 3 0 7 0 0 0 0 0 0 0
1 3 3 0 7 0 0 0 0 0 0 0 0
1 3 3 0 7 0 0 0 0 0 0 0 0 0 0
1 3 3 0 7 0 0 0 0 0 1 0
1 3 3 0 7 0 0 0 0 0 18446744073709551615 0
1 3 3 0 7 0 0 0 0 0 0 0 0 1
1 3 3 0 7 0 0 0 0 0 0 0 0 1 2024 2 29 0 0 2024 3 1 0
1 3 3 0 7 0 0 0 0 0 0 0 0 1 2024 2 29 0 0 2024 3 1 0 0 0
1 3 3 0 7 0 0 0 0 0 0 0 0 2 2024 2 29 0 0 2024 3 1 0 0
1 3 3 0 7 0 0 0 0 0 0 0 0 204
1 3 3 0 7 0 0 0 0 0 0 0 0 18446744073709551615
2 0 0 0 0 0 0 0 4 0 0 0 0 0 0 0 0 0 0 0 0 0
2 0 0 0 2 0 0 0 3 0 0 0 0 0 0 0 0 0 0 0 0 0
2 0 0 0 0 2 0 0 3 0 0 0 0 0 0 0 0 0 0 0 0 0
2 0 0 0 0 0 0 0 3 0 0 0 0 0 0 0 0 2 0 0 0 0
2 0 0 0 0 0 0 0 3 0 0 0 0 0 0 0 0 0 0 0 1 0
2 0 0 0 0 0 0 0 3 0 0 0 0 0 0 0 0 0 0 0 1 64 0 0 0 0
2 0 0 0 0 0 0 0 3 0 0 0 0 0 0 0 0 0 0 9 0 1 3 4 5 1 2
2 0 0 0 0 0 0 0 3 0 0 0 0 0 0 0 0 0 0 9 0 1 3 4 5 1 1
3 7";

fn too_long(numbers: usize, kind: &str) -> String {
    format!("{kind}{}", " 0".repeat(numbers - 1))
}

fn state_with_proposers(count: usize) -> String {
    format!("2 0 0 0 0 0 0 0 3 0 0 0 0 0 0 0 0 0 0 0 {count}{} 0", " 0 0 0 0".repeat(count))
}

fn state_with_reads(count: usize) -> String {
    let reads: Vec<String> = (0..count).map(|id| format!(" {id} 1 0 0 0")).collect();
    format!("2 0 0 0 0 0 0 0 3 0 0 0 0 0 0 0 0 0 0 {count} 0 {count}{}", reads.concat())
}

fn bad_lines(sample: &mut Sample) {
    sample.title("lines that are no call, and skipped lines");
    sample.add_text(BAD_LINES);
    sample.text.extend_from_slice(b"\n#\n");
    let long = [too_long(2048, "3"), too_long(2049, "3"), too_long(2049, "11"), state_with_proposers(65), state_with_reads(129)];
    sample.add_text(&long.join("\n"));
    let tables = [65, 64].map(|length| format!("1 3 3 0 7 0 0 0 0 1 {length}{} {length}{} 0 0", " 0".repeat(length), " 0".repeat(length)));
    sample.add_text(&tables.join("\n"));
}

fn reads_at_their_limit(sample: &mut Sample) {
    sample.title("128 open reads; ids at their end; a commit and responses that serve");
    let full = state_with_reads(127);
    sample.add_text(&format!(
        "1 3 3 0 7 0 0 0 0 0 0 0 0 0\n{full}\n4 5 0\n4 6 0\n10 1 0 0 3 0 1 0 0 1 0 0\n8 1 0 0 0 9 1 0 0 0 0 0\n10 2 0 0 4 1 1 0 0 0 0 0"
    ));
    for next_id in [LARGEST_NUMBER, LARGEST_NUMBER + 1, usize::MAX] {
        let state = format!("2 2 1 9 0 0 0 0 1 0 0 4 0 0 0 0 0 0 0 {next_id} 0 0");
        sample.add_text(&format!("1 3 3 0 7 0 0 0 0 0 0 0 0 0\n{state}\n4 5 0\n4 6 9\n10 1 0 0 {LARGEST_NUMBER} 0 1 0 0 1 0 0"));
    }
}

/// Every table full of the largest numbers, and a commit that serves every read.
fn widest_answers(sample: &mut Sample) {
    sample.title("the widest answers");
    let largest = usize::MAX;
    let proposers: Vec<String> = (0..PLACES).map(|proposer| format!(" {proposer} {largest} {largest} {largest}")).collect();
    let reads: Vec<String> = (0..OPEN_READ_LIMIT).map(|read| format!(" {} {largest} 1 {largest} 1", largest - 200 + read)).collect();
    let slot = LARGEST_NUMBER - 1;
    let sets = [largest; 5].map(|set| set.to_string()).join(" ");
    let start = format!("2 {slot} 1 {largest} 1 1 {largest} {largest} 2 {largest} {largest} {largest} {sets} 1 {largest} {largest}");
    let state = format!("{start} {PLACES}{} {OPEN_READ_LIMIT}{}", proposers.concat(), reads.concat());
    let commit = format!("8 63 0 0 {slot} {LARGEST_NUMBER} 1 0 0 0 0 0");
    sample.add_text(&format!("1 64 64 63 {largest} 63 3 0 0 0 0 0 0 0\n{state}\n{commit}"));
}

fn slots_at_their_limit(sample: &mut Sample) {
    sample.title("the last slots; a shard that is spent");
    for slot in [LARGEST_NUMBER - 2, LARGEST_NUMBER - 1, LARGEST_NUMBER, usize::MAX] {
        let state = format!("2 {slot} 0 0 0 0 0 0 3 0 0 0 0 0 0 0 0 0 0 0 0 0");
        let commit = format!("8 1 0 0 {slot} 9 1 0 0 0 0 0");
        let response = format!("10 1 0 0 0 {slot} 1 0 0 0 0 0");
        let request = "9 1 0 0 3 1 0 0 0 0 0";
        sample.add_text(&format!(
            "1 3 3 0 7 0 0 0 0 0 0 0 0 0\n{state}\n{request}\n3 5\n{request}\n{response}\n{commit}\n3 5\n4 1 1\n{commit}"
        ));
    }
}

fn base_calls() -> [Call; 8] {
    let round = Round { group: 0, leader: 1 };
    let words = Words { value_held: true, requester: Some(1), fast: true, held_requester: Some(2) };
    let receive = |message| Call::Receive(Frame { src: 1, last_v: None, message }, words);
    [
        Call::Propose(5),
        Call::StartRead { tag: 3, arrival_slot: 0 },
        receive(Message::Prepare { slot: 0, round, promise: Promise::Paxos { accept_round: Some(round), v: 5 } }),
        receive(Message::Accept { slot: 0, round, v: 5 }),
        receive(Message::ForwardRequest { v: 5 }),
        receive(Message::Commit { slot: 0, v: 5 }),
        receive(Message::ReadRequest { id: 3 }),
        receive(Message::ReadResponse { id: 3, next_readable_slot: 0 }),
    ]
}

/// Every field of the line at its limits, each from a new shard.
fn every_field(sample: &mut Sample, settings: &Settings, line: &Line) {
    let mut text = vec![];
    push_line(&mut text, line);
    let text = String::from_utf8(text).unwrap();
    let numbers: Vec<&str> = text.trim_end().split(' ').collect();
    let limits = [settings.process_count, LARGEST_NUMBER - 1, LARGEST_NUMBER, LARGEST_NUMBER + 1];
    for field in 1..numbers.len() {
        let mut recorder = Recorder::new(settings);
        for limit in limits {
            let limit = limit.to_string();
            let mut damaged = numbers.clone();
            damaged[field] = &limit;
            recorder.text(damaged.join(" ").as_bytes());
        }
        sample.add(recorder.recording);
    }
}

/// Fails where the Rust does not give the number of the first cause.
fn two_causes(sample: &mut Sample) -> io::Result<()> {
    let (recordings, pairs) = pairs::record(&pair_paths::paths()).map_err(io::Error::other)?;
    for (title, recording) in recordings {
        sample.title(&title);
        sample.add(recording);
    }
    let both = pairs.apart + pairs.second_besides + pairs.first_besides;
    eprintln!(
        "pairs of causes at once: {both}, of {} with what the first needs besides, of {} the second; where the second gives its number: {}",
        pairs.first_besides, pairs.second_besides, pairs.second_gives
    );
    Ok(())
}

fn plain_settings(mode: Mode, process_count: usize) -> Settings {
    Settings {
        process_count,
        replica_count: process_count,
        my_pid: 0,
        alive_replicas: any_settings::all_below(process_count),
        first_leader: 1,
        mode,
        quorum: Some(3),
        has_committers: true,
        committers: vec![1; process_count],
        delegates: vec![1; process_count],
        whole_mhz_from: 0,
        windows: vec![],
    }
}

fn limits_of_fields(sample: &mut Sample) {
    sample.title("every field of every call at its limits");
    let settings = plain_settings(Mode::Paxos, 3);
    for call in base_calls() {
        every_field(sample, &settings, &Line::Call(call));
    }
    sample.title("every field of the settings at its limits");
    for mode in [Mode::Pando, Mode::SwiftPaxos] {
        let settings = plain_settings(mode, 3);
        every_field(sample, &settings, &Line::Settings(settings.clone()));
    }
}

/// A new shard of these settings, and every kind of call behind them, then a state and a call: where the shard is not made, each gives the number that the
/// settings are to give.
fn settings_and_calls(sample: &mut Sample, settings: Settings, number: Option<u32>) -> io::Result<()> {
    let mut recorder = Recorder::default();
    let mut numbers = vec![recorder.line(&Line::Settings(settings.clone())).err()];
    numbers.extend(base_calls().map(|call| recorder.call(&call).err()));
    recorder.text(b"2 4 0 0 0 0 0 0 3 0 0 0 0 0 0 0 0 0 0 0 0 0");
    recorder.text(b"3 5");
    sample.add(recorder.recording);
    let so = if number.is_some() { numbers.iter().all(|given| *given == number) } else { numbers[0].is_none() };
    if !so {
        return Err(io::Error::other(format!("{settings:?}: {numbers:?} in place of {number:?}")));
    }
    Ok(())
}

/// Document 02, E13: "one above 2^63−2 gives 1".
fn slots_of_whole_mhz(sample: &mut Sample) -> io::Result<()> {
    sample.title("E13: the slot of whole MHz at its limits, and every kind of call behind it");
    for whole_mhz_from in [0, LAST_SLOT, LAST_SLOT + 1, LAST_SLOT + 2, usize::MAX] {
        let settings = Settings { whole_mhz_from, ..plain_settings(Mode::Paxos, 3) };
        settings_and_calls(sample, settings, (whole_mhz_from > LAST_SLOT).then_some(1))?;
    }
    Ok(())
}

fn date(year: usize, month: usize, day: usize, hour: usize, minute: usize) -> Date {
    Date { year, month, day, hour, minute }
}

/// Dates that the calendar, the years 1970 to 9999 or the day lack.
fn missing_dates() -> Vec<Date> {
    let largest = usize::MAX;
    vec![
        date(1969, 12, 31, 23, 59),
        date(10000, 1, 1, 0, 0),
        date(2023, 2, 29, 0, 0),
        date(2100, 2, 29, 0, 0),
        date(2024, 2, 30, 0, 0),
        date(2024, 4, 31, 0, 0),
        date(2024, 12, 32, 0, 0),
        date(2024, 0, 1, 0, 0),
        date(2024, 13, 1, 0, 0),
        date(2024, 1, 0, 0, 0),
        date(2024, 1, 1, 24, 0),
        date(2024, 1, 1, 0, 60),
        date(largest, largest, largest, largest, largest),
        date(2024, 1, 1, 0, 1 << 32),
    ]
}

/// Document 02, E8: "More than 128 windows give 1"; 17 is "checked when settings are made, after 1".
fn windows_at_limits(sample: &mut Sample) -> io::Result<()> {
    sample.title("E8: windows, dates and times at their limits, and every kind of call behind them");
    let (first, last) = (date(1970, 1, 1, 0, 0), date(9999, 12, 31, 23, 59));
    let window = |start, end| Window { start, end };
    let (all, none) = (window(first, last), window(last, last));
    let leap = [window(date(2000, 2, 29, 23, 58), date(2000, 2, 29, 23, 59)), window(date(2024, 2, 29, 0, 0), date(2024, 3, 1, 0, 0))];
    let mut cases = vec![
        (vec![all], None),
        (leap.to_vec(), None),
        (vec![all; WINDOW_LIMIT], None),
        (vec![all; WINDOW_LIMIT + 1], Some(1)),
        (vec![none; WINDOW_LIMIT + 1], Some(1)),
        (vec![all; 202], Some(1)),
        ([vec![all; WINDOW_LIMIT - 1], vec![none]].concat(), Some(17)),
        (vec![none], Some(17)),
        (vec![window(last, first)], Some(17)),
        (vec![all, window(first, first), all], Some(17)),
    ];
    cases.extend(missing_dates().into_iter().map(|missing| (vec![window(missing, last)], Some(17))));
    cases.extend(missing_dates().into_iter().map(|missing| (vec![all, window(first, missing)], Some(17))));
    for (windows, number) in cases {
        settings_and_calls(sample, Settings { windows, ..plain_settings(Mode::Paxos, 3) }, number)?;
    }
    let unfit = Settings { windows: vec![none], ..plain_settings(Mode::EPaxos, 3) };
    settings_and_calls(sample, unfit.clone(), Some(17))?;
    settings_and_calls(sample, Settings { whole_mhz_from: LAST_SLOT + 1, ..unfit.clone() }, Some(1))?;
    settings_and_calls(sample, Settings { my_pid: 3, ..unfit }, Some(1))
}

/// The last places of the tables: a committer, or in Pando a delegate, that is not below the count of 64 is outside the limits.
fn last_places(sample: &mut Sample) -> io::Result<()> {
    sample.title("64 processes: the committer of the last, and in Pando its delegate, at their limits");
    for mode in MODES {
        let mut recorder = Recorder::default();
        for (process, delegate) in [(PLACES - 1, false), (PLACES, false), (PLACES - 1, true), (PLACES, true)] {
            let mut settings = plain_settings(mode, PLACES);
            let table = if delegate { &mut settings.delegates } else { &mut settings.committers };
            table[PLACES - 1] = process;
            let outside = process == PLACES && (!delegate || mode == Mode::Pando);
            if recorder.line(&Line::Settings(settings)).is_err() != outside {
                return Err(io::Error::other(format!("{mode:?}, table place {process}: {outside}")));
            }
        }
        sample.add(recorder.recording);
    }
    Ok(())
}

/// Every kind of call in that mode; then from a source that is not live.
fn plain_calls(sample: &mut Sample, mode: Mode) {
    sample.title(&format!("{mode:?}: every kind of call, from a live source and from another"));
    for alive_replicas in [0b111, 0b101] {
        let mut recorder = Recorder::new(&Settings { alive_replicas, ..plain_settings(mode, 3) });
        for call in &base_calls() {
            let _ = recorder.call(call);
        }
        sample.add(recorder.recording);
    }
}

fn random_runs(sample: &mut Sample, mode: Mode, random: &mut Random) {
    sample.title(&format!("{mode:?}: legal runs of a group over several slots, one member after the other"));
    for _ in 0..6 {
        let mut settings = any_settings::settings(random, mode, Sizes::Small);
        while settings.process_count < 3 {
            settings = any_settings::settings(random, mode, Sizes::Small);
        }
        sample.add(generate::group_run(random, &settings, false));
    }
    sample.title(&format!("{mode:?}: runs with damaged frames"));
    for _ in 0..3 {
        let settings = any_settings::settings(random, mode, Sizes::Small);
        sample.add(generate::group_run(random, &settings, true));
    }
    sample.title(&format!("{mode:?}: any frames from any states"));
    for set_states in [0, 20] {
        let settings = any_settings::settings(random, mode, Sizes::Small);
        sample.add(generate::single_shard(random, &settings, 60, set_states, 10));
    }
    let settings = Settings { my_pid: 63, ..plain_settings(mode, PLACES) };
    sample.add(generate::single_shard(random, &settings, 20, 20, 10));
    sample.add(generate::damaged_settings(random, &settings));
    let line = Line::Call(any_call::call(random, &settings, Recorder::new(&settings).state().unwrap()));
    let mut recorder = Recorder::new(&settings);
    for _ in 0..6 {
        recorder.text(&damage::bytes(random, &line));
    }
    sample.add(recorder.recording);
}

fn epaxos_ties(sample: &mut Sample, random: &mut Random) {
    sample.title("EPaxos: fast answers with equal scores");
    for process_count in [3, 4, 4, 5, 5, 5, 6, 6, 7, 7, 9, 12, 16] {
        let settings = plain_settings(Mode::EPaxos, process_count);
        sample.add(generate::epaxos_answers(random, &settings));
    }
}

/// What the sample must hold.
fn is_complete(sample: &Sample) -> bool {
    let counts = &sample.counts;
    let every_refusal = REFUSALS.into_iter().all(|number| counts.refusals(number) > 0);
    let every_mode = counts.modes.iter().all(|mode| mode.commits > 0 && mode.served > 0 && mode.kinds[1..].iter().all(|calls| *calls > 0));
    let ties = counts.modes.iter().any(|mode| mode.ties > 0);
    every_refusal && every_mode && ties && sample.text.len() < 700_000
}

pub fn run() -> io::Result<bool> {
    let mut sample = Sample::default();
    for (title, lines) in INSTANCES {
        sample.title(title);
        sample.add_text(lines);
    }
    bad_lines(&mut sample);
    reads_at_their_limit(&mut sample);
    widest_answers(&mut sample);
    slots_at_their_limit(&mut sample);
    limits_of_fields(&mut sample);
    last_places(&mut sample)?;
    slots_of_whole_mhz(&mut sample)?;
    windows_at_limits(&mut sample)?;
    two_causes(&mut sample)?;
    let mut random = Random::new(1);
    for mode in MODES {
        plain_calls(&mut sample, mode);
        random_runs(&mut sample, mode, &mut random);
    }
    epaxos_ties(&mut sample, &mut random);
    // the last line has no line feed
    sample.text.pop();
    io::stdout().write_all(&sample.text)?;
    eprintln!("{}", sample.counts);
    Ok(is_complete(&sample))
}
