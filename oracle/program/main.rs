//! The oracle: the real Rust of kcensus' Paxos family, call by call (docs/ORACLE.md).
mod answer;
mod any_call;
mod any_settings;
mod asserted;
mod calls;
mod claim;
mod compare;
mod connector;
#[allow(dead_code, unused_imports)] // upstream: the oracle runs the handlers alone
mod consensus;
mod counts;
mod damage;
mod eval;
mod exhaust;
mod generate;
mod group;
mod host;
mod limits;
#[allow(dead_code)]
mod message;
#[allow(dead_code)]
mod multi_sink;
mod one_slot;
mod pair_causes;
mod pair_paths;
mod pairs;
mod printer;
#[cfg_attr(feature = "hash", allow(dead_code))]
mod proposer_map;
mod random;
mod reader;
mod record;
mod replay;
mod short_runs;
mod shrink;
mod swift;
mod recording;
mod tie_runs;
mod ties;
#[allow(dead_code)]
mod topology;

use std::process::ExitCode;

fn run(arguments: &[String]) -> std::io::Result<bool> {
    match arguments.first().map(|name| name.as_str()) {
        None | Some("answer") => answer::run().map(|()| true),
        Some("record") => record::run(),
        Some("short_runs") => short_runs::run().map(|()| true),
        Some("swift") => Ok(swift::run()),
        Some("compare") => match compare::Options::read(&arguments[1..]) {
            Some(options) => compare::run(&options),
            None => Err(std::io::Error::other(compare::USAGE)),
        },
        Some("exhaust") => match exhaust::Options::read(&arguments[1..]) {
            Some(options) => exhaust::run(&options),
            None => Err(std::io::Error::other(exhaust::USAGE)),
        },
        Some("ties") => match tie_runs::Options::read(&arguments[1..]) {
            Some(options) => Ok(tie_runs::run(&options)),
            None => Err(std::io::Error::other(tie_runs::USAGE)),
        },
        Some("slot") => match one_slot::Options::read(&arguments[1..]) {
            Some(options) => Ok(one_slot::run(&options)),
            None => Err(std::io::Error::other(one_slot::USAGE)),
        },
        Some(name) => Err(std::io::Error::other(format!("oracle answer | record | short_runs | swift | compare | exhaust | ties | slot, not {name}"))),
    }
}

fn main() -> ExitCode {
    host::keep_panics();
    let arguments: Vec<String> = std::env::args().skip(1).collect();
    match run(&arguments) {
        Ok(true) => ExitCode::SUCCESS,
        Ok(false) => ExitCode::FAILURE,
        Err(error) => {
            eprintln!("{error}");
            ExitCode::from(2)
        }
    }
}
