//! Dates and change windows through the library, beside a calendar that counts day by day and a plain answer about windows.
use chanbook_shard::planning_sys::{self as sys, FlatKeptWindows};
use chanbook_shard::windows::{Date, NotInCalendar, Window, WindowAnswer, WindowRefusal, Windows};
use chanbook_shard::{GroupSettings, LAST_SLOT, PFModeSetting, Settings};

const PAST_ALL: u64 = 4_223_371_680;

fn days_in(year: u64, month: u64) -> u64 {
    let leap = year.is_multiple_of(400) || (year.is_multiple_of(4) && !year.is_multiple_of(100));
    match month {
        2 => 28 + u64::from(leap),
        4 | 6 | 9 | 11 => 30,
        _ => 31,
    }
}

/// Each day once, at a time that changes from day to day.
#[test]
fn every_day_there_and_back() {
    let mut days = 0;
    for year in 1970..=9999 {
        for month in 1..=12 {
            for day in 1..=days_in(year, month) {
                let (hour, minute) = (days % 24, days % 60);
                let date = Date::new(year, month, day, hour, minute);
                let wanted = 1440 * days + 60 * hour + minute;
                assert_eq!((date.minutes(), Date::of_minute(wanted)), (Ok(wanted), Ok(date)));
                days += 1;
            }
            assert_eq!(Date::new(year, month, days_in(year, month) + 1, 0, 0).minutes(), Err(NotInCalendar));
        }
    }
    assert_eq!(1440 * days, PAST_ALL);
}

#[test]
fn each_number_of_a_date_at_its_limit_and_beyond() {
    let fits = |place: usize, number: u64| {
        let mut numbers = [2026, 11, 18, 2, 30];
        numbers[place] = number;
        let [year, month, day, hour, minute] = numbers;
        Date::new(year, month, day, hour, minute).minutes().is_ok()
    };
    let limits = [(0, 1970, 9999), (1, 1, 12), (2, 1, 30), (3, 0, 23), (4, 0, 59)];
    for (place, first, last) in limits {
        assert!(fits(place, first) && fits(place, last) && !fits(place, last + 1), "{place}");
        assert!(first == 0 || !fits(place, first - 1), "{place}");
        assert!([1 << 32, (1 << 32) + first, 1 << 63, u64::MAX].iter().all(|number| !fits(place, *number)), "{place}");
    }
    for (year, leap) in [(1972, true), (2000, true), (2100, false), (2026, false), (2400, true), (9996, true)] {
        assert_eq!(Date::new(year, 2, 29, 0, 0).minutes().is_ok(), leap, "{year}");
    }
}

#[test]
fn a_minute_past_the_year_9999_has_no_date() {
    assert_eq!(Date::of_minute(PAST_ALL - 1), Ok(Date::new(9999, 12, 31, 23, 59)));
    for late in [PAST_ALL, PAST_ALL + 1, 1 << 32, 1 << 33, 1 << 63, u64::MAX].into_iter().filter(|late| *late >= PAST_ALL) {
        assert_eq!(Date::of_minute(late), Err(NotInCalendar), "{late}");
    }
}

#[test]
fn a_date_is_written_and_read() {
    for text in ["1970-01-01 00:00", "2000-02-29 23:59", "9999-12-31 23:59"] {
        assert_eq!(text.parse::<Date>().map(|date| date.to_string()).as_deref(), Ok(text));
    }
    let others = ["", "2026-11-18", "2026-11-18T02:30", "2026-11-18 2:30", "+026-11-18 02:30", "2026-11-18 02:3\u{663}", "2026-02-29 00:00", "1969-12-31 23:59"];
    for text in others {
        assert_eq!(text.parse::<Date>(), Err(NotInCalendar), "{text}");
    }
}

fn date(minute: u64) -> Date {
    Date::of_minute(minute).expect("a minute of the calendar")
}

fn window(start: u64, end: u64) -> Window {
    Window::new(date(start), date(end))
}

fn group() -> GroupSettings {
    GroupSettings::new(Settings::all_live(3, 0, PFModeSetting::Paxos), LAST_SLOT)
}

fn made_of(windows: &[Window]) -> Windows {
    Windows::new(&group().with_windows(windows.to_vec()))
}

/// Document 02's sentences, from the minutes.
fn as_said(windows: &[(u64, u64)], minute: u64) -> WindowAnswer {
    if windows.iter().any(|(start, end)| (*start..*end).contains(&minute)) {
        return WindowAnswer::Inside;
    }
    windows.iter().map(|(start, _)| *start).filter(|start| *start > minute).min().map_or(WindowAnswer::NoneFollows, WindowAnswer::Next)
}

#[test]
fn a_minute_is_inside_or_the_next_window_is_the_nearest() {
    let sets: [&[(u64, u64)]; 7] = [
        &[],
        &[(100, 200)],
        &[(100, 200), (200, 300)],
        &[(300, 400), (100, 350), (320, 330)],
        &[(500, 600), (500, 501), (0, 1)],
        &[(0, PAST_ALL - 1)],
        &[(PAST_ALL - 2, PAST_ALL - 1), (7, 9)],
    ];
    for set in sets {
        let windows = made_of(&set.iter().map(|(start, end)| window(*start, *end)).collect::<Vec<_>>());
        let around = set.iter().flat_map(|(start, end)| [*start, *end]).flat_map(|at| [at.saturating_sub(1), at, at + 1]);
        for minute in around.chain([0, 1, PAST_ALL - 1]).filter(|minute| *minute < PAST_ALL) {
            assert_eq!(windows.ask(minute), Ok(as_said(set, minute)), "{set:?} {minute}");
        }
        for late in [PAST_ALL, PAST_ALL + 1, 1 << 63, u64::MAX] {
            assert_eq!(windows.ask(late), Err(WindowRefusal::NotInCalendar), "{late}");
        }
    }
}

fn refused(windows: Windows, number: u64) -> bool {
    let asked = [0, PAST_ALL, u64::MAX].map(|minute| windows.ask(minute).map_err(WindowRefusal::number));
    windows.made().map_err(WindowRefusal::number) == Err(number) && asked == [Err(number); 3]
}

#[test]
fn one_comes_before_seventeen() {
    let many: Vec<_> = (1..=129).map(|place| window(10 * place, 10 * place + 5)).collect();
    assert_eq!(made_of(&many[..128]).ask(1280), Ok(WindowAnswer::Inside));
    assert!(refused(made_of(&many), 1));
    assert!(refused(made_of(&vec![window(7, 7); 129]), 1));
    assert!(refused(made_of(&vec![window(7, 7); 128]), 17));
    assert!(refused(made_of(&[window(8, 7)]), 17) && made_of(&[window(7, 8)]).made().is_ok());
    let late = GroupSettings { whole_mhz_from: LAST_SLOT + 1, ..group().with_windows(vec![window(7, 7)]) };
    assert!(refused(Windows::new(&late), 1));
    assert!(refused(Windows::new(&GroupSettings { settings: Settings { my_pid: 3, ..group().settings }, ..group() }), 1));
}

#[test]
fn what_was_put_aside_may_have_any_numbers() {
    let kept = *made_of(&[window(10, 20)]).flat();
    assert_eq!(Windows::from_flat(Box::new(kept)), made_of(&[window(10, 20)]));
    let mut behind = kept;
    behind.starts[1..].fill(30);
    behind.ends[1..].fill(u64::MAX);
    assert_eq!(Windows::from_flat(Box::new(behind)).ask(20), Ok(WindowAnswer::NoneFollows), "no place behind the windows is looked at");
    for number in [1, 2, 16, 18, 64, u64::MAX] {
        assert!(refused(Windows::from_flat(Box::new(FlatKeptWindows { figures: [number, 1], ..kept })), 1), "{number}");
    }
    assert!(refused(Windows::from_flat(Box::new(FlatKeptWindows { figures: [17, 1], ..kept })), 17));
    assert_eq!(sys::chanbook_windows_ask(&kept.starts, &kept.ends, &[0, 129], 5).answer, 1);
}
