//! Ties of `epaxos_try_adopt`. The Rust takes the first of the best proposers in the order in which its map is walked; ours takes the lowest.
use crate::calls::{Call, Promise, State};
use crate::consensus::paxos_family::inside::Engine;
#[cfg(not(feature = "hash"))]
use crate::proposer_map::{ORDER, Order};

pub enum Tie {
    /// One value has the best score.
    None,
    ToLowest,
    ToAnother,
}

/// The values of the best proposers, lowest proposer first.
fn best_values(state: &State) -> Vec<usize> {
    let present = || state.proposers.iter().filter(|place| state.fast_proposers >> place.proposer & 1 == 1);
    let best = present().map(|place| place.epaxos_score).max();
    present().filter(|place| Some(place.epaxos_score) == best).map(|place| place.v).collect()
}

fn adopted_value(state: &State) -> usize {
    match state.held {
        Some(Promise::Paxos { accept_round: Some(_), v }) => v,
        other => panic!("an adopted value is accepted, not {other:?}"),
    }
}

/// Which way the adoption that has just happened went; it must be to one of the best.
pub fn taken(state: &State) -> Tie {
    let values = best_values(state);
    let adopted = adopted_value(state);
    assert!(values.contains(&adopted), "what is adopted is not among the best");
    if values.iter().all(|v| *v == values[0]) {
        Tie::None
    } else if adopted == values[0] {
        Tie::ToLowest
    } else {
        Tie::ToAnother
    }
}

/// Looks at an adoption that has just happened; the engine stays as it is. The call is tried again with the map walked in other orders: each
/// choice must be among the best, and lowest first must choose the lowest.
#[cfg(not(feature = "hash"))]
pub fn look(engine: &mut Engine, before: &State, call: &Call) -> Tie {
    let after = engine.state.clone();
    let tie = taken(&after);
    assert!(!matches!(tie, Tie::ToAnother), "lowest first adopts the value of the lowest of the best");
    if matches!(tie, Tie::None) {
        return tie;
    }
    let count = after.fast_proposers.count_ones() as usize;
    let rotations = (1..count.min(5)).map(Order::Rotated);
    for order in rotations.chain([Order::HighestFirst]) {
        ORDER.set(order);
        engine.set_state(before);
        let outcome = engine.call(call);
        assert!(outcome.is_ok(), "another order refuses: {outcome:?}");
        let _ = taken(&engine.state);
    }
    ORDER.set(Order::LowestFirst);
    engine.set_state(&after);
    Tie::ToLowest
}

/// With std's own map there is one order, and it is not ours to choose.
#[cfg(feature = "hash")]
pub fn look(engine: &mut Engine, _: &State, _: &Call) -> Tie {
    taken(&engine.state)
}
