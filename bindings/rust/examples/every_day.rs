//! Prints a time of each day from 1970-01-01 to 9999-12-31, by its minute, as `minute date`, and makes sure that the date is that minute's. tools/every_day.sh
//! compares the lines with an independent calendar.
use chanbook_shard::windows::Date;
use std::io::Write;

fn main() -> std::io::Result<()> {
    let mut out = std::io::BufWriter::new(std::io::stdout().lock());
    for day in 0..2_932_897 {
        let minute = 1440 * day + 7919 * day % 1440;
        let date = Date::of_minute(minute).expect("a day before the year 10000");
        assert_eq!((date.minutes(), date.to_string().parse()), (Ok(minute), Ok(date)));
        writeln!(out, "{minute} {date}")?;
    }
    assert!(Date::of_minute(1440 * 2_932_897).is_err());
    out.flush()
}
