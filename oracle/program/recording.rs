//! Call lines with the Rust's answers to them.
use crate::answer::Place;
use crate::calls::{Call, Commit, Done, LARGEST_NUMBER, Line, MODES, Message, Mode, Outcome, Promise, Settings, State};
use crate::counts::{Counts, Mark};
use crate::printer::{call_kind, push_line};
use crate::reader::read_line;
use crate::ties::{self, Tie};

#[derive(Default)]
pub struct Recording {
    pub lines: Vec<u8>,
    pub answers: Vec<u8>,
    /// Where each line, and its answer, ends. A line that is skipped has an empty answer.
    pub ends: Vec<(usize, usize)>,
    /// The first line of each segment: settings, which make a new shard.
    pub segments: Vec<usize>,
    pub counts: Counts,
}

impl Recording {
    pub fn append(&mut self, other: Recording) {
        let (lines, answers, first) = (self.lines.len(), self.answers.len(), self.ends.len());
        self.lines.extend(other.lines);
        self.answers.extend(other.answers);
        self.ends.extend(other.ends.iter().map(|(line, answer)| (line + lines, answer + answers)));
        self.segments.extend(other.segments.iter().map(|segment| segment + first));
        self.counts.add(&other.counts);
    }

    pub fn line(&self, index: usize) -> &[u8] {
        let start = if index == 0 { 0 } else { self.ends[index - 1].0 };
        &self.lines[start..self.ends[index].0]
    }

    pub fn answer(&self, index: usize) -> &[u8] {
        let start = if index == 0 { 0 } else { self.ends[index - 1].1 };
        &self.answers[start..self.ends[index].1]
    }

    /// The line whose answer has that byte; the last where no answer goes so far.
    pub fn line_at(&self, position: usize) -> usize {
        let line = self.ends.iter().position(|(_, answer)| *answer > position);
        line.unwrap_or(self.ends.len() - 1)
    }

    fn end_line(&mut self) {
        self.ends.push((self.lines.len(), self.answers.len()));
    }

    /// Takes the last line back.
    fn drop_line(&mut self) {
        self.ends.pop();
        let (line, answer) = self.ends.last().copied().unwrap_or((0, 0));
        self.lines.truncate(line);
        self.answers.truncate(answer);
    }
}

/// A shard of the real Rust that keeps a recording of its calls.
#[derive(Default)]
pub struct Recorder {
    pub place: Place,
    pub recording: Recording,
    mode: usize,
    process_count: usize,
    /// The state was set directly.
    set_directly: bool,
    /// A tie may go to each of the best, and the run goes on.
    pub any_tie: bool,
    /// With std's map a tie may go another way than to the lowest proposer: the recording ends before it, unless any tie will do.
    pub ended: bool,
}

impl Recorder {
    pub fn new(settings: &Settings) -> Recorder {
        let mut recorder = Recorder::default();
        let _ = recorder.line(&Line::Settings(settings.clone()));
        recorder
    }

    pub fn state(&self) -> Option<&State> {
        self.place.engine.as_ref().ok().map(|engine| &engine.state)
    }

    pub fn set_state(&mut self, state: &State) {
        let _ = self.line(&Line::State(state.clone()));
    }

    pub fn call(&mut self, call: &Call) -> Outcome {
        self.line(&Line::Call(*call))
    }

    pub fn line(&mut self, line: &Line) -> Outcome {
        if self.ended {
            // no call is made, and so none is counted
            return Err(0);
        }
        push_line(&mut self.recording.lines, line);
        self.answer(line)
    }

    /// A line of any bytes but line feeds. What it hands back, where it is a call that is taken.
    pub fn text(&mut self, text: &[u8]) -> Option<Done> {
        if self.ended {
            return None;
        }
        self.recording.lines.extend_from_slice(text);
        self.recording.lines.push(b'\n');
        match read_line(text) {
            Ok(line) => self.answer(&line).ok(),
            Err(_) => {
                self.place.text(text, &mut self.recording.answers);
                self.recording.end_line();
                self.recording.counts.bad_lines += 1;
                None
            }
        }
    }

    pub fn mark(&mut self, mark: Mark) {
        self.recording.counts.modes[self.mode].marks[mark as usize] += 1;
    }

    fn answer(&mut self, line: &Line) -> Outcome {
        if let Line::Settings(settings) = line {
            self.recording.segments.push(self.recording.ends.len());
            self.mode = MODES.iter().position(|mode| *mode == settings.mode).unwrap();
            self.process_count = settings.process_count;
        }
        self.set_directly = match line {
            Line::Settings(_) => false,
            Line::State(_) => true,
            Line::Call(_) => self.set_directly,
        };
        let adopting = self.state_before_adoption(line);
        let outcome = self.place.line(line, &mut self.recording.answers);
        self.recording.end_line();
        self.count(line, &outcome);
        if let (Some(before), Line::Call(call), Ok(done)) = (adopting, line, &outcome)
            && done.sent.iter().any(|sent| matches!(sent.message, Message::Accept { .. }))
        {
            self.adoption(&before, call);
        }
        outcome
    }

    /// The state before a call that may adopt a proposal of EPaxos.
    fn state_before_adoption(&self, line: &Line) -> Option<State> {
        let Line::Call(Call::Receive(frame, _)) = line else { return None };
        let Message::Prepare { promise: Promise::Fast { .. }, .. } = frame.message else { return None };
        let state = self.state()?;
        let accepted = matches!(state.held, Some(Promise::Paxos { accept_round: Some(_), .. }));
        (MODES[self.mode] == Mode::EPaxos && !accepted).then(|| state.clone())
    }

    fn adoption(&mut self, before: &State, call: &Call) {
        let counts = &mut self.recording.counts.modes[self.mode];
        counts.adoptions += 1;
        let engine = self.place.engine.as_mut().ok().expect("an unmade shard adopts nothing");
        let tie = if self.any_tie { ties::taken(&engine.state) } else { ties::look(engine, before, call) };
        counts.ties += !matches!(tie, Tie::None) as u64;
        counts.other_ties += matches!(tie, Tie::ToAnother) as u64;
        if matches!(tie, Tie::ToAnother) && !self.any_tie {
            self.recording.drop_line();
            self.ended = true;
        }
    }

    fn count(&mut self, line: &Line, outcome: &Outcome) {
        let counts = &mut self.recording.counts.modes[self.mode];
        let kind = match line {
            Line::Settings(_) => 1,
            Line::State(_) => 2,
            Line::Call(call) => call_kind(call),
        };
        counts.kinds[kind] += 1;
        match outcome {
            Ok(done) => {
                counts.commits += done.commit.is_some() as u64;
                counts.fast_commits += done.commit.is_some_and(|commit| commit.fast) as u64;
                counts.served += done.served.len() as u64;
                if let (Line::Call(call), Some(commit)) = (line, done.commit) {
                    self.mark_commit(call, commit);
                }
            }
            Err(number) => counts.refusals[*number as usize] += 1,
        }
    }

    fn mark_commit(&mut self, call: &Call, commit: Commit) {
        let Call::Receive(frame, _) = call else { return };
        let by_prepare = matches!(frame.message, Message::Prepare { .. });
        if by_prepare && self.set_directly {
            self.mark(Mark::FastFromSetState);
        }
        if commit.v >= LARGEST_NUMBER - 1000 {
            self.mark(Mark::LargeValue);
        }
        if self.process_count > 16 && (by_prepare || matches!(frame.message, Message::Accept { .. })) {
            self.mark(Mark::LargeGroup);
        }
    }
}
