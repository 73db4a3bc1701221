//! When a carrier may go on air: the windows of a group, and what is said of some minutes, with dates that a person can read.
//!
//!     cargo run --offline --manifest-path bindings/rust/Cargo.toml --example on_air
use chanbook_shard::windows::{Date, Window, Windows};
use chanbook_shard::{GroupSettings, LAST_SLOT, PFModeSetting, Settings};

/// From, to.
const AGREED: [(&str, &str); 3] = [
    ("2026-11-18 22:00", "2026-11-19 04:00"),
    ("2026-11-19 22:00", "2026-11-20 04:00"),
    ("2026-11-20 01:00", "2026-11-20 06:30"),
];

const ASKED: [&str; 6] =
    ["2026-11-18 12:00", "2026-11-18 22:00", "2026-11-19 03:59", "2026-11-19 04:00", "2026-11-20 05:00", "2026-11-20 06:30"];

fn date(text: &str) -> Date {
    text.parse().expect("a date of the calendar")
}

fn main() {
    let agreed = AGREED.map(|(start, end)| Window::new(date(start), date(end))).to_vec();
    for window in &agreed {
        println!("window {window}");
    }
    let group = GroupSettings::new(Settings::all_live(3, 0, PFModeSetting::Paxos), LAST_SLOT);
    let windows = Windows::new(&group.clone().with_windows(agreed));
    for asked in ASKED.map(date) {
        let minute = asked.minutes().expect("a date of the calendar");
        println!("{asked}  {}", windows.ask(minute).expect("windows that are made, and a minute of the calendar"));
    }
    let late = windows.ask(u64::MAX).expect_err("past the year 9999");
    println!("minute {}  {late}", u64::MAX);
    let backwards = Window::new(date("2026-11-19 04:00"), date("2026-11-18 22:00"));
    let unmade = Windows::new(&group.with_windows(vec![backwards])).made();
    println!("window {backwards}  {}", unmade.expect_err("it ends before it starts"));
}
