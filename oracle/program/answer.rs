//! `oracle answer`: reads call lines and prints what the real Rust answers.
use crate::calls::{Call, Done, Line, Outcome, Settings, State};
use crate::consensus::paxos_family::inside::Engine;
use crate::printer::{push_outcome, push_shard, push_text};
use crate::reader::read_line;
use std::io::{self, BufRead, Write};

/// The one shard that the lines speak of; where it is not made, the number that everything on it is refused with.
pub struct Place {
    pub engine: Result<Engine, u32>,
}

impl Default for Place {
    /// Before the first settings.
    fn default() -> Place {
        Place { engine: Err(1) }
    }
}

impl Place {
    fn push_end(&self, out: &mut Vec<u8>) {
        match &self.engine {
            Ok(engine) => push_shard(out, &engine.state),
            Err(_) => push_text(out, " | not_made"),
        }
        out.push(b'\n');
    }

    pub fn settings(&mut self, settings: &Settings, out: &mut Vec<u8>) -> Outcome {
        self.engine = settings.refusal().map_or_else(|| Ok(Engine::new(settings)), Err);
        let outcome = self.engine.as_ref().map(|_| Done::default()).map_err(|number| *number);
        push_outcome(out, &outcome);
        self.push_end(out);
        outcome
    }

    pub fn state(&mut self, state: &State, out: &mut Vec<u8>) -> Outcome {
        let outcome = match &mut self.engine {
            Ok(engine) => {
                engine.set_state(state);
                Ok(Done::default())
            }
            Err(number) => Err(*number),
        };
        push_outcome(out, &outcome);
        self.push_end(out);
        outcome
    }

    pub fn call(&mut self, call: &Call, out: &mut Vec<u8>) -> Outcome {
        let outcome = match &mut self.engine {
            Ok(engine) => engine.call(call),
            Err(number) => Err(*number),
        };
        push_outcome(out, &outcome);
        self.push_end(out);
        outcome
    }

    pub fn line(&mut self, line: &Line, out: &mut Vec<u8>) -> Outcome {
        match line {
            Line::Settings(settings) => self.settings(settings, out),
            Line::State(state) => self.state(state, out),
            Line::Call(call) => self.call(call, out),
        }
    }

    /// The answer to a line without its line feed, if the line is not skipped.
    pub fn text(&mut self, line: &[u8], out: &mut Vec<u8>) {
        if line.is_empty() || line.starts_with(b"#") {
            return;
        }
        match read_line(line) {
            Ok(line) => {
                let _ = self.line(&line, out);
            }
            Err(bad) => {
                push_text(out, "bad line: ");
                push_text(out, bad.reason());
                out.push(b'\n');
            }
        }
    }
}

pub fn run() -> io::Result<()> {
    let mut input = io::BufReader::with_capacity(1 << 16, io::stdin().lock());
    let mut output = io::stdout().lock();
    let mut place = Place::default();
    let (mut line, mut answers) = (vec![], vec![]);
    while input.read_until(b'\n', &mut line)? > 0 {
        place.text(line.strip_suffix(b"\n").unwrap_or(&line), &mut answers);
        line.clear();
        if answers.len() > 1 << 16 {
            output.write_all(&answers)?;
            answers.clear();
        }
    }
    output.write_all(&answers)
}
