//! Dates of the Gregorian calendar in UTC, the minutes since 1970-01-01 00:00 that they stand for, and change windows: when a carrier may go on air, whether a
//! minute is inside one, and if not, when the next begins (document 02, E8).
use crate::planning_sys::{self, FlatKeptWindows};
use crate::settings::GroupSettings;
use crate::sys::{FlatDate, FlatWindow, FlatWindows};
use std::fmt;
use std::str::FromStr;

/// A minute of UTC in the Gregorian calendar. Any numbers may stand in it. The library says whether there is such a date, of the years 1970 to 9999.
///
/// ```
/// use chanbook_shard::windows::Date;
/// assert_eq!(Date::new(2024, 2, 29, 6, 5).to_string(), "2024-02-29 06:05");
/// ```
#[derive(Clone, Copy, Debug, PartialEq, Eq, PartialOrd, Ord, Hash, Default)]
pub struct Date {
    /// The year, 1970 to 9999.
    pub year: u64,
    /// The month, 1 to 12.
    pub month: u64,
    /// The day of the month, from 1 on.
    pub day: u64,
    /// The hour, 0 to 23.
    pub hour: u64,
    /// The minute, 0 to 59.
    pub minute: u64,
}

impl Date {
    /// The date of these numbers.
    pub fn new(year: u64, month: u64, day: u64, hour: u64, minute: u64) -> Date {
        Date { year, month, day, hour, minute }
    }

    /// The minutes from 1970-01-01 00:00 to the date.
    ///
    /// ```
    /// use chanbook_shard::windows::{Date, NotInCalendar};
    /// assert_eq!(Date::new(2026, 11, 18, 2, 30).minutes(), Ok(29_916_150));
    /// assert_eq!(Date::new(2100, 2, 29, 0, 0).minutes(), Err(NotInCalendar), "2100 is no leap year");
    /// assert_eq!(NotInCalendar.number(), 17);
    /// ```
    pub fn minutes(self) -> Result<u64, NotInCalendar> {
        let answer = planning_sys::chanbook_minute_of(self.into());
        if answer.refusal == 0 { Ok(answer.value) } else { Err(NotInCalendar) }
    }

    /// The date of a minute since 1970-01-01 00:00.
    ///
    /// ```
    /// use chanbook_shard::windows::{Date, NotInCalendar};
    /// assert_eq!(Date::of_minute(29_916_150), Ok(Date::new(2026, 11, 18, 2, 30)));
    /// assert_eq!(Date::of_minute(4_223_371_680), Err(NotInCalendar), "past the year 9999");
    /// ```
    pub fn of_minute(minute: u64) -> Result<Date, NotInCalendar> {
        let answer = planning_sys::chanbook_date_of(minute);
        let FlatDate { year, month, day, hour, minute } = answer.date;
        if answer.refusal == 0 { Ok(Date { year, month, day, hour, minute }) } else { Err(NotInCalendar) }
    }
}

/// There is no such date or time in the years 1970 to 9999, or the minute is past them.
#[derive(Clone, Copy, Debug, PartialEq, Eq, PartialOrd, Ord, Hash)]
pub struct NotInCalendar;

impl NotInCalendar {
    /// Document 02's number, 17.
    pub fn number(self) -> u64 {
        17
    }
}

impl fmt::Display for NotInCalendar {
    fn fmt(&self, f: &mut fmt::Formatter<'_>) -> fmt::Result {
        write!(f, "not in the calendar of the years 1970 to 9999 ({})", self.number())
    }
}

impl std::error::Error for NotInCalendar {}

/// As it is written, `2026-11-18 02:30`: four digits of the year and two of each other number. A date that is not in the calendar is none.
///
/// ```
/// use chanbook_shard::windows::Date;
/// let date: Date = "2026-11-18 02:30".parse().unwrap();
/// assert_eq!((date, date.to_string().as_str()), (Date::new(2026, 11, 18, 2, 30), "2026-11-18 02:30"));
/// assert!("2026-02-30 00:00".parse::<Date>().is_err() && "2026-1-1 0:0".parse::<Date>().is_err());
/// ```
impl FromStr for Date {
    type Err = NotInCalendar;

    fn from_str(text: &str) -> Result<Date, NotInCalendar> {
        let marks = [(4, b'-'), (7, b'-'), (10, b' '), (13, b':')];
        let stands = |(at, byte): (usize, u8)| match marks.iter().find(|(place, _)| *place == at) {
            Some((_, mark)) => byte == *mark,
            None => byte.is_ascii_digit(),
        };
        if text.len() != 16 || !text.bytes().enumerate().all(stands) {
            return Err(NotInCalendar);
        }
        let number = |from: usize, to: usize| text[from..to].parse().map_err(|_| NotInCalendar);
        let date = Date::new(number(0, 4)?, number(5, 7)?, number(8, 10)?, number(11, 13)?, number(14, 16)?);
        date.minutes().map(|_| date)
    }
}

impl fmt::Display for Date {
    fn fmt(&self, f: &mut fmt::Formatter<'_>) -> fmt::Result {
        write!(f, "{:04}-{:02}-{:02} {:02}:{:02}", self.year, self.month, self.day, self.hour, self.minute)
    }
}

/// A window, from its first minute up to, not including, its last. Any two dates may stand in it. The library says whether the end is after the start.
///
/// ```
/// use chanbook_shard::windows::{Date, Window};
/// let night = Window::new(Date::new(2024, 2, 29, 22, 0), Date::new(2024, 3, 1, 5, 30));
/// assert_eq!(night.to_string(), "2024-02-29 22:00 to 2024-03-01 05:30");
/// ```
#[derive(Clone, Copy, Debug, PartialEq, Eq, Hash, Default)]
pub struct Window {
    /// The first minute, which belongs to the window.
    pub start: Date,
    /// The minute in which it ends, which does not.
    pub end: Date,
}

impl Window {
    /// The window between these dates.
    pub fn new(start: Date, end: Date) -> Window {
        Window { start, end }
    }
}

impl fmt::Display for Window {
    fn fmt(&self, f: &mut fmt::Formatter<'_>) -> fmt::Result {
        write!(f, "{} to {}", self.start, self.end)
    }
}

impl From<Date> for FlatDate {
    fn from(date: Date) -> FlatDate {
        FlatDate { year: date.year, month: date.month, day: date.day, hour: date.hour, minute: date.minute }
    }
}

impl From<Window> for FlatWindow {
    fn from(window: Window) -> FlatWindow {
        FlatWindow { start: window.start.into(), end: window.end.into() }
    }
}

impl From<&[Window]> for FlatWindows {
    /// Of more than 128 windows the count is kept, by which they are refused, and the first 128.
    fn from(windows: &[Window]) -> FlatWindows {
        let mut flat = FlatWindows { places: [FlatWindow::default(); 128], count: windows.len() as u64 };
        for (place, window) in flat.places.iter_mut().zip(windows) {
            *place = (*window).into();
        }
        flat
    }
}

/// Why there is no answer about windows.
#[derive(Clone, Copy, Debug, PartialEq, Eq, PartialOrd, Ord, Hash)]
#[repr(u8)]
pub enum WindowRefusal {
    /// The settings of the group are outside their limits, more than 128 windows among them: every question is refused so.
    Unmade = 1,
    /// A window of the settings has a date or a time that there is not, or an end that is not after its start: every question is refused so. Or the minute is past
    /// the year 9999.
    NotInCalendar = 17,
}

impl WindowRefusal {
    /// The number by which document 02 names it.
    pub fn number(self) -> u64 {
        self as u64
    }
}

impl fmt::Display for WindowRefusal {
    fn fmt(&self, f: &mut fmt::Formatter<'_>) -> fmt::Result {
        let why = match self {
            WindowRefusal::Unmade => "the settings of the group are outside their limits",
            WindowRefusal::NotInCalendar => "a window or the minute is not in the calendar",
        };
        write!(f, "refused, {}: {why}", self.number())
    }
}

impl std::error::Error for WindowRefusal {}

/// What is said of a minute.
#[derive(Clone, Copy, Debug, PartialEq, Eq, PartialOrd, Ord, Hash)]
pub enum WindowAnswer {
    /// It is inside a window.
    Inside,
    /// It is not, and this is the first minute of the nearest later window.
    Next(u64),
    /// It is not, and no window begins later.
    NoneFollows,
}

/// The minute of a next window as its date.
impl fmt::Display for WindowAnswer {
    fn fmt(&self, f: &mut fmt::Formatter<'_>) -> fmt::Result {
        match self {
            WindowAnswer::Inside => f.write_str("inside a window"),
            WindowAnswer::Next(minute) => match Date::of_minute(*minute) {
                Ok(date) => write!(f, "the next window begins {date}"),
                Err(_) => write!(f, "the next window begins in minute {minute}"),
            },
            WindowAnswer::NoneFollows => f.write_str("no window follows"),
        }
    }
}

/// What is kept of the windows of group settings for questions: the minutes in which each starts and ends. It owns its memory and lends it to the library: a
/// question looks at no date, and copies nothing.
///
/// ```
/// use chanbook_shard::windows::{Date, Window, WindowAnswer, WindowRefusal, Windows};
/// use chanbook_shard::{GroupSettings, LAST_SLOT, PFModeSetting, Settings};
/// let settings = GroupSettings::new(Settings::all_live(3, 0, PFModeSetting::Paxos), LAST_SLOT);
/// let night = Window::new(Date::new(2026, 11, 18, 22, 0), Date::new(2026, 11, 19, 4, 0));
/// let windows = Windows::new(&settings.clone().with_windows(vec![night]));
/// let ask = |day, hour| windows.ask(Date::new(2026, 11, day, hour, 0).minutes().unwrap());
///
/// assert_eq!(ask(18, 22), Ok(WindowAnswer::Inside));
/// assert_eq!(ask(19, 4), Ok(WindowAnswer::NoneFollows), "the last minute does not belong to the window");
/// assert_eq!(ask(18, 12).unwrap().to_string(), "the next window begins 2026-11-18 22:00");
/// assert_eq!(windows.ask(u64::MAX), Err(WindowRefusal::NotInCalendar));
///
/// let backwards = Windows::new(&settings.with_windows(vec![Window::new(night.end, night.start)]));
/// assert_eq!(backwards.ask(0).unwrap_err().number(), 17);
/// ```
#[derive(Clone, Debug, PartialEq, Eq)]
pub struct Windows {
    kept: Box<FlatKeptWindows>,
}

impl Windows {
    /// The windows of the settings of a group. Of settings outside their limits they are not made, and every question is refused with their number, 1 or 17.
    pub fn new(group: &GroupSettings) -> Windows {
        let mut kept = Box::new(FlatKeptWindows { starts: [0; 128], ends: [0; 128], figures: [0; 2] });
        let FlatKeptWindows { starts, ends, figures } = &mut *kept;
        planning_sys::chanbook_windows_new(group.into(), starts, ends, figures);
        Windows { kept }
    }

    /// Whether they are made.
    pub fn made(&self) -> Result<(), WindowRefusal> {
        match self.kept.figures[planning_sys::WINDOWS_NUMBER] {
            0 => Ok(()),
            17 => Err(WindowRefusal::NotInCalendar),
            _ => Err(WindowRefusal::Unmade),
        }
    }

    /// Whether a minute since 1970-01-01 00:00 is inside a window, and if not, when the next begins.
    pub fn ask(&self, minute: u64) -> Result<WindowAnswer, WindowRefusal> {
        let FlatKeptWindows { starts, ends, figures } = &*self.kept;
        let said = planning_sys::chanbook_windows_ask(starts, ends, figures, minute);
        match said.answer {
            planning_sys::INSIDE => Ok(WindowAnswer::Inside),
            planning_sys::NEXT => Ok(WindowAnswer::Next(said.minute)),
            planning_sys::NONE => Ok(WindowAnswer::NoneFollows),
            17 => Err(WindowRefusal::NotInCalendar),
            _ => Err(WindowRefusal::Unmade),
        }
    }

    /// What is kept, for a host that puts it aside.
    pub fn flat(&self) -> &FlatKeptWindows {
        &self.kept
    }

    /// What was put aside. Whatever numbers it has, each question gets an answer.
    pub fn from_flat(kept: Box<FlatKeptWindows>) -> Windows {
        Windows { kept }
    }
}
