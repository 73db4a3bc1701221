//! Random segments: settings and the calls of one shard.
use crate::any_call;
use crate::any_settings::{self, Sizes};
use crate::calls::{Call, Frame, Line, MODES, Message, Mode, Promise, Round, Settings};
use crate::damage;
use crate::group::{Chances, Group};
use crate::random::Random;
use crate::recording::{Recorder, Recording};

/// Any frames at a single shard; in percent, a state set directly in place of a call, and damaged lines.
pub fn single_shard(random: &mut Random, settings: &Settings, calls: usize, set_states: usize, damaged: usize) -> Recording {
    let mut recorder = Recorder::new(settings);
    for _ in 0..calls {
        let Some(state) = recorder.state().cloned() else { break };
        if random.chance(set_states) {
            let state = any_call::state(random, settings);
            recorder.set_state(&state);
            continue;
        }
        let line = Line::Call(any_call::call(random, settings, &state));
        if !random.chance(damaged) {
            let _ = recorder.line(&line);
        } else if random.chance(80) {
            recorder.text(&damage::numbers(random, &line));
        } else {
            recorder.text(&damage::bytes(random, &line));
        }
    }
    recorder.recording
}

/// Settings with numbers changed, and calls whether or not they are taken.
pub fn damaged_settings(random: &mut Random, settings: &Settings) -> Recording {
    let mut recorder = Recorder::new(settings);
    for _ in 0..4 {
        let line = Line::Settings(settings.clone());
        let text = if random.chance(90) { damage::numbers(random, &line) } else { damage::bytes(random, &line) };
        recorder.text(&text);
        let state = any_call::state(random, settings);
        if random.chance(20) && recorder.place.engine.is_err() {
            recorder.set_state(&state);
        }
        let _ = recorder.call(&any_call::call(random, settings, &state));
    }
    recorder.recording
}

/// The processes in any order; some stand there twice.
fn any_order(random: &mut Random, process_count: usize) -> Vec<usize> {
    let mut left: Vec<usize> = (0..process_count).collect();
    let mut order = vec![];
    while !left.is_empty() {
        let place = random.below(left.len());
        order.push(if random.chance(8) { left[place] } else { left.swap_remove(place) });
    }
    order
}

/// EPaxos: a proposal of the own process, and fast answers of the others for few proposers, so that scores are often equal.
pub fn epaxos_answers(random: &mut Random, settings: &Settings) -> Recording {
    let my_pid = settings.my_pid;
    let mut recorder = Recorder::new(settings);
    let _ = recorder.call(&Call::Propose(10 + my_pid));
    let mut proposers = vec![my_pid];
    proposers.extend((0..random.below(4)).map(|_| random.below(settings.process_count)));
    for src in any_order(random, settings.process_count) {
        // a process that proposes answers for itself
        let proposer = if proposers.contains(&src) { src } else { random.pick(&proposers) };
        let round = Round { group: 0, leader: my_pid };
        let message = Message::Prepare { slot: 0, round, promise: Promise::Fast { proposer, v: 10 + proposer } };
        let words = any_call::words(random, settings);
        let _ = recorder.call(&Call::Receive(Frame { src, last_v: None, message }, words));
    }
    recorder.recording
}

/// SwiftPaxos: a proposal of the own process, the leader's Accept, and fast answers or Accepts of the others.
pub fn swift_answers(random: &mut Random, settings: &Settings) -> Recording {
    let my_pid = settings.my_pid;
    let v = 10 + my_pid;
    // without committers the requester commits, which is the own process here
    let has_committers = settings.has_committers && random.chance(30);
    let mut recorder = Recorder::new(&Settings { has_committers, ..settings.clone() });
    let _ = recorder.call(&Call::Propose(v));
    let accepts = random.pick(&[0, 20, 60]);
    for src in any_order(random, settings.process_count) {
        let round = Round { group: 0, leader: settings.first_leader };
        let message = if src == settings.first_leader || random.chance(accepts) {
            Message::Accept { slot: 0, round, v }
        } else {
            let proposer = if random.chance(95) { my_pid } else { random.below(settings.process_count) };
            Message::Prepare { slot: 0, round, promise: Promise::Fast { proposer, v } }
        };
        let mut words = any_call::words(random, settings);
        if random.chance(95) {
            words.requester = Some(my_pid);
        }
        let _ = recorder.call(&Call::Receive(Frame { src, last_v: None, message }, words));
    }
    recorder.recording
}

pub fn group_run(random: &mut Random, settings: &Settings, damaged: bool) -> Recording {
    let chances = Chances::any(random, settings.process_count, damaged);
    let mut group = Group::new(settings);
    group.run(random, &chances);
    group.into_recording()
}

/// A recording of about that many lines, of that mode or of all.
pub fn recording(random: &mut Random, mode: Option<Mode>, lines: usize) -> Recording {
    let mut recording = Recording::default();
    while recording.ends.len() < lines {
        let mode = mode.unwrap_or_else(|| random.pick(&MODES));
        let settings = any_settings::settings(random, mode, Sizes::Any);
        let (set_states, damaged) = (random.pick(&[0, 10, 30]), random.pick(&[0, 0, 10]));
        recording.append(match random.below(100) {
            0..=29 => group_run(random, &settings, false),
            30..=44 => group_run(random, &settings, true),
            45..=59 if mode == Mode::EPaxos => epaxos_answers(random, &settings),
            45..=59 if mode == Mode::SwiftPaxos => swift_answers(random, &settings),
            45..=96 => single_shard(random, &settings, 60, set_states, damaged),
            _ => damaged_settings(random, &settings),
        });
    }
    recording
}
