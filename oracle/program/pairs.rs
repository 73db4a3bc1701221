//! Two causes at once, for the recorded sample: on each path of a call every pair of the causes that document 01's Order line puts one before the
//! other (pair_paths.rs has the paths). A path has a call that is taken, and each cause a change of it after which that cause holds. Three things are asked
//! of the Rust: the call as it is is taken; with one cause it gives that cause's number; with two the number of the first. And it is asked that undoing the
//! first change leaves the second cause.
use crate::asserted::asserted;
use crate::calls::{Call, Frame, Line, Message, Mode, Outcome, Round, Settings, State, Words};
use crate::host;
use crate::printer::push_line;
use crate::recording::{Recorder, Recording};

#[derive(Clone)]
pub struct Case {
    pub settings: Settings,
    pub state: State,
    pub call: Call,
}

#[derive(Clone, Copy)]
pub struct Cause {
    pub name: &'static str,
    /// By document 01's table; 0 where the call does nothing.
    pub number: u32,
    /// A part of the assertion that the Rust meets, or of its text; empty where it meets none.
    pub asserts: &'static str,
    pub bring: fn(&mut Case),
}

/// Causes of which the first does not give its number, and why: their conditions contradict each other, or another cause comes before both.
pub struct Never {
    pub first: &'static str,
    pub seconds: Vec<&'static str>,
    pub why: &'static str,
    /// Both changes can be made, and the number is then the second's. The sample has these calls.
    pub second_gives: bool,
}

/// What a pair needs besides the changes of both causes, or in place of one that the other change undoes.
pub struct Besides {
    pub first: &'static str,
    pub second: &'static str,
    /// It brings about the first cause; else the second.
    pub of_first: bool,
    pub bring: fn(&mut Case),
}

pub struct Path {
    pub name: &'static str,
    pub modes: &'static [Mode],
    pub taken: fn(Mode) -> Case,
    /// In their order.
    pub causes: Vec<Cause>,
    pub never: Vec<Never>,
    pub besides: Vec<Besides>,
}

/// How many pairs there are, by what is checked of the second cause.
#[derive(Default)]
pub struct Pairs {
    /// Neither change touches a number that the other sets: undoing the first leaves the call with the second alone.
    pub apart: usize,
    /// With what the second needs besides, it gives its number without the first.
    pub second_besides: usize,
    /// The first is brought about in another way.
    pub first_besides: usize,
    /// Both changes are made, and the number is the second's.
    pub second_gives: usize,
}

impl Case {
    pub fn frame(&mut self) -> &mut Frame {
        match &mut self.call {
            Call::Receive(frame, _) => frame,
            other => panic!("no message: {other:?}"),
        }
    }

    pub fn words(&mut self) -> &mut Words {
        match &mut self.call {
            Call::Receive(_, words) => words,
            other => panic!("no message: {other:?}"),
        }
    }

    pub fn slot(&mut self) -> &mut usize {
        match &mut self.frame().message {
            Message::Prepare { slot, .. } | Message::Accept { slot, .. } | Message::Commit { slot, .. } => slot,
            Message::ReadResponse { next_readable_slot, .. } => next_readable_slot,
            other => panic!("no slot: {other:?}"),
        }
    }

    pub fn round(&mut self) -> &mut Round {
        match &mut self.frame().message {
            Message::Prepare { round, .. } | Message::Accept { round, .. } => round,
            other => panic!("no round: {other:?}"),
        }
    }

    /// The leader of the message's round and of the round that the shard is in.
    pub fn led_by(&mut self, leader: usize) {
        self.round().leader = leader;
        if let Some(round) = &mut self.state.round {
            round.leader = leader;
        }
    }

    /// The numbers of its three lines.
    fn numbers(&self) -> [Vec<u64>; 3] {
        let lines = [Line::Settings(self.settings.clone()), Line::State(self.state.clone()), Line::Call(self.call)];
        lines.map(|line| {
            let mut text = vec![];
            push_line(&mut text, &line);
            let text = String::from_utf8_lossy(&text);
            text.split_whitespace().map(|number| number.parse().expect("a line is numbers")).collect()
        })
    }
}

/// The places of the sets in the settings, the state and the call: the live replicas; the promises, accepts and answers, and the proposers.
const SETS: [&[usize]; 3] = [&[4], &[12, 13, 14, 16], &[]];

/// Whether `both` has each number, and of a set each member, that `one` has otherwise than `taken`.
fn stands(taken: &Case, one: &Case, both: &Case) -> bool {
    let (taken, one, both) = (taken.numbers(), one.numbers(), both.numbers());
    (0..3).all(|line| {
        let (taken, one, both) = (&taken[line], &one[line], &both[line]);
        (0..one.len().max(taken.len())).all(|place| match (taken.get(place), one.get(place), both.get(place)) {
            (taken, one, _) if taken == one => true,
            (Some(taken), Some(one), Some(both)) if SETS[line].contains(&place) => (taken ^ one) & (one ^ both) == 0,
            (_, one, both) => one == both,
        })
    })
}

/// Whether the call did nothing: it is taken, and nothing is handed back or changed.
fn did_nothing(outcome: &Outcome, before: &State, after: Option<&State>) -> bool {
    outcome.as_ref().is_ok_and(|done| *done == Default::default()) && after == Some(before)
}

/// A recorder, and the settings and state of its shard where the next case need not set them again.
#[derive(Default)]
struct Shard {
    recorder: Recorder,
    known: Option<(Settings, State)>,
}

impl Shard {
    fn set(&mut self, case: &Case) {
        let known = self.known.replace((case.settings.clone(), case.state.clone()));
        let same_settings = known.as_ref().is_some_and(|(settings, _)| *settings == case.settings);
        if !same_settings {
            let _ = self.recorder.line(&Line::Settings(case.settings.clone()));
        }
        if !same_settings || known.is_some_and(|(_, state)| state != case.state) {
            self.recorder.set_state(&case.state);
        }
    }

    /// What is wrong with what the Rust makes of the case, where that cause is the first that holds.
    fn answer(&mut self, case: &Case, cause: Option<&Cause>) -> Result<(), String> {
        self.set(case);
        let before = self.recorder.state().cloned();
        // an unmade shard meets none
        host::PANIC.take();
        let outcome = self.recorder.call(&case.call);
        let as_wanted = match (cause, &outcome) {
            (None, outcome) => outcome.is_ok(),
            (Some(cause), outcome) if cause.number == 0 => {
                before.is_some_and(|before| did_nothing(outcome, &before, self.recorder.state()))
            }
            (Some(cause), Err(number)) => {
                let asserted = asserted();
                *number == cause.number && asserted.contains(cause.asserts) && asserted.is_empty() == cause.asserts.is_empty()
            }
            (Some(_), Ok(_)) => false,
        };
        if cause.is_none() {
            self.known = None;
        }
        if as_wanted { Ok(()) } else { Err(format!("{outcome:?}, and the Rust asserted: {}", asserted())) }
    }
}

impl Path {
    fn never(&self, first: &Cause, second: &Cause) -> Option<&Never> {
        self.never.iter().find(|never| never.first == first.name && never.seconds.contains(&second.name))
    }

    fn besides(&self, first: &Cause, second: &Cause) -> Option<&Besides> {
        self.besides.iter().find(|besides| besides.first == first.name && besides.second == second.name)
    }

    fn with(&self, mode: Mode, holding: &[&Cause]) -> Case {
        let mut case = (self.taken)(mode);
        holding.iter().for_each(|cause| (cause.bring)(&mut case));
        if let [first, second] = holding
            && let Some(besides) = self.besides(first, second)
        {
            (besides.bring)(&mut case);
        }
        case
    }

    /// No cause, each cause alone, and each pair of causes.
    fn holding(&self) -> Vec<Vec<&Cause>> {
        let mut holding = vec![vec![]];
        for (index, first) in self.causes.iter().enumerate() {
            holding.push(vec![first]);
            let seconds = self.causes[index + 1..].iter().filter(|second| self.never(first, second).is_none_or(|never| never.second_gives));
            holding.extend(seconds.map(|second| vec![first, second]));
        }
        holding
    }

    /// The cause whose number the Rust gives.
    fn given<'causes>(&self, holding: &[&'causes Cause]) -> Option<&'causes Cause> {
        match holding {
            [first, second] if self.never(first, second).is_some() => Some(second),
            _ => holding.first().copied(),
        }
    }

    fn title(&self, mode: Mode, holding: &[&Cause]) -> String {
        let names: Vec<String> = holding.iter().map(|cause| format!("{} {}", cause.number, cause.name)).collect();
        match holding {
            [] => format!("two causes at once: {}, {mode:?}", self.name),
            [first, second] if self.never(first, second).is_some() => format!("not {}, but {}", names[0], names[1]),
            _ => names.join("; "),
        }
    }

    /// The pairs of this path in which the first cause does not give its number, one line for each cause and reason.
    fn left_out(&self) -> Vec<String> {
        let label = |name: &str| self.causes.iter().find(|cause| cause.name == name).map(|cause| format!("{} {name}", cause.number));
        let line = |never: &Never| {
            let seconds: Vec<String> = never.seconds.iter().filter_map(|second| label(second)).collect();
            let first = label(never.first).filter(|_| !seconds.is_empty())?;
            let which = if never.second_gives { "the second" } else { "never" };
            Some(format!("{first} and ({}): {which}, {}", seconds.join("; "), never.why))
        };
        self.never.iter().filter_map(line).collect()
    }

    /// Whether undoing the first change leaves the second cause.
    fn undone(&self, mode: Mode, first: &Cause, second: &Cause, pairs: &mut Pairs) -> Result<(), String> {
        let alone = self.with(mode, &[second]);
        match self.besides(first, second) {
            Some(besides) if besides.of_first => pairs.first_besides += 1,
            Some(besides) => {
                let mut case = alone;
                (besides.bring)(&mut case);
                Shard::default().answer(&case, Some(second))?;
                pairs.second_besides += 1;
            }
            None => {
                let (taken, both) = ((self.taken)(mode), self.with(mode, &[first, second]));
                if !stands(&taken, &self.with(mode, &[first]), &both) || !stands(&taken, &alone, &both) {
                    return Err("one change undoes the other".to_string());
                }
                match self.never(first, second) {
                    Some(_) => pairs.second_gives += 1,
                    None => pairs.apart += 1,
                }
            }
        }
        Ok(())
    }

    fn record(&self, mode: Mode, pairs: &mut Pairs) -> Result<Vec<(String, Recording)>, String> {
        let mut shard = Shard::default();
        let mut recordings = vec![];
        for holding in self.holding() {
            let title = self.title(mode, &holding);
            let fault = |fault| format!("{}, {mode:?}, {title}: {fault}", self.name);
            let case = self.with(mode, &holding);
            shard.answer(&case, self.given(&holding)).map_err(fault)?;
            if let [first, second] = holding[..] {
                self.undone(mode, first, second, pairs).map_err(fault)?;
            }
            recordings.push((title, std::mem::take(&mut shard.recorder.recording)));
        }
        recordings.extend(self.left_out().into_iter().map(|line| (line, Recording::default())));
        Ok(recordings)
    }
}

/// The recordings with their titles, and the pairs among them.
pub fn record(paths: &[Path]) -> Result<(Vec<(String, Recording)>, Pairs), String> {
    let (mut recordings, mut pairs) = (vec![], Pairs::default());
    for path in paths {
        for mode in path.modes {
            recordings.extend(path.record(*mode, &mut pairs)?);
        }
    }
    Ok((recordings, pairs))
}
