//! Date-times.

use std::error::Error;
use std::fmt;
use std::str::FromStr;

/// A date-time of TOML, by the parts that it has.
///
/// `Debug` and `Display` print it as it stands in TOML, and [`FromStr`] reads it from there.
///
/// ```
/// use cargo_manifest::{Date, Datetime};
///
/// let day: Datetime = "1979-05-27".parse()?;
/// assert_eq!(day.date, Some(Date { year: 1979, month: 5, day: 27 }));
/// assert_eq!((day.time, day.offset), (None, None));
/// assert_eq!(day.to_string(), "1979-05-27");
/// # Ok::<(), cargo_manifest::DatetimeParseError>(())
/// ```
#[derive(Clone, Copy, PartialEq, Eq, Hash)]
pub struct Datetime {
    /// The date; a time alone has none.
    pub date: Option<Date>,
    /// The time; a date alone has none.
    pub time: Option<Time>,
    /// The offset; a local date-time has none.
    pub offset: Option<Offset>,
}

/// A date.
#[derive(Clone, Copy, Debug, PartialEq, Eq, PartialOrd, Ord, Hash)]
pub struct Date {
    /// The year, of four digits.
    pub year: u16,
    /// 1 to 12.
    pub month: u8,
    /// From 1.
    pub day: u8,
}

/// A time.
#[derive(Clone, Copy, Debug, PartialEq, Eq, PartialOrd, Ord, Hash)]
pub struct Time {
    /// 0 to 23.
    pub hour: u8,
    /// 0 to 59.
    pub minute: u8,
    /// 0 to 60, where there are any: TOML 1.1 lets them out.
    pub second: Option<u8>,
    /// Below 1,000,000,000, where there are any.
    pub nanosecond: Option<u32>,
}

/// An offset from UTC.
#[derive(Clone, Copy, Debug, PartialEq, Eq, Hash)]
pub enum Offset {
    /// Written `Z`.
    Z,
    /// A number of minutes, which is less than 0 west of UTC.
    Minutes(i16),
}

impl Datetime {
    /// Whether the parts are those of a date-time of TOML, which is read back from its text.
    pub(crate) fn is_one(&self) -> bool {
        let mut printed = *self;
        if let Some(time) = &mut printed.time {
            // (a fraction of 0 is not printed)
            time.nanosecond = time.nanosecond.filter(|nanosecond| *nanosecond > 0);
        }
        read(&self.to_string()) == Some(printed)
    }
}

impl fmt::Debug for Datetime {
    fn fmt(&self, f: &mut fmt::Formatter<'_>) -> fmt::Result {
        fmt::Display::fmt(self, f)
    }
}

impl fmt::Display for Datetime {
    fn fmt(&self, f: &mut fmt::Formatter<'_>) -> fmt::Result {
        if let Some(date) = &self.date {
            date.fmt(f)?;
        }
        if self.date.is_some() && self.time.is_some() {
            f.write_str("T")?;
        }
        if let Some(time) = &self.time {
            time.fmt(f)?;
        }
        self.offset.iter().try_for_each(|offset| offset.fmt(f))
    }
}

impl fmt::Display for Date {
    fn fmt(&self, f: &mut fmt::Formatter<'_>) -> fmt::Result {
        write!(f, "{:04}-{:02}-{:02}", self.year, self.month, self.day)
    }
}

impl fmt::Display for Time {
    fn fmt(&self, f: &mut fmt::Formatter<'_>) -> fmt::Result {
        write!(f, "{:02}:{:02}", self.hour, self.minute)?;
        let Some(second) = self.second else { return Ok(()) };
        write!(f, ":{second:02}")?;
        match self.nanosecond {
            None | Some(0) => Ok(()),
            Some(nanosecond) => {
                let digits = format!("{nanosecond:09}");
                write!(f, ".{}", digits.trim_end_matches('0'))
            }
        }
    }
}

impl fmt::Display for Offset {
    fn fmt(&self, f: &mut fmt::Formatter<'_>) -> fmt::Result {
        match self {
            Offset::Z => f.write_str("Z"),
            Offset::Minutes(minutes) => {
                let sign = if *minutes < 0 { '-' } else { '+' };
                let minutes = minutes.unsigned_abs();
                write!(f, "{sign}{:02}:{:02}", minutes / 60, minutes % 60)
            }
        }
    }
}

/// The text is no date-time.
#[derive(Clone, Debug, PartialEq, Eq)]
pub struct DatetimeParseError(());

impl fmt::Display for DatetimeParseError {
    fn fmt(&self, f: &mut fmt::Formatter<'_>) -> fmt::Result {
        f.write_str("the text is no date-time")
    }
}

impl Error for DatetimeParseError {}

impl FromStr for Datetime {
    type Err = DatetimeParseError;

    fn from_str(text: &str) -> Result<Datetime, DatetimeParseError> {
        read(text).ok_or(DatetimeParseError(()))
    }
}

/// The number of this many digits at the beginning of a text, and what stands after them.
fn digits(text: &str, count: usize) -> Option<(u16, &str)> {
    let (digits, rest) = text.split_at_checked(count)?;
    digits.bytes().all(|byte| byte.is_ascii_digit()).then_some(())?;
    Some((digits.parse().ok()?, rest))
}

/// A number of two digits that is at most `most`, and what stands after it.
fn two(text: &str, most: u16) -> Option<(u8, &str)> {
    let (number, rest) = digits(text, 2)?;
    (number <= most).then_some((u8::try_from(number).ok()?, rest))
}

fn date(text: &str) -> Option<(Date, &str)> {
    let (year, rest) = digits(text, 4)?;
    let (month, rest) = two(rest.strip_prefix('-')?, 12)?;
    let is_leap = year % 4 == 0 && (year % 100 != 0 || year % 400 == 0);
    let days = match month {
        2 if is_leap => 29,
        2 => 28,
        4 | 6 | 9 | 11 => 30,
        _ => 31,
    };
    let (day, rest) = two(rest.strip_prefix('-')?, days)?;
    (month > 0 && day > 0).then_some((Date { year, month, day }, rest))
}

fn nanosecond(text: &str) -> Option<(u32, &str)> {
    let count = text.bytes().take_while(u8::is_ascii_digit).count();
    let (digits, rest) = text.split_at(count);
    let most = digits.get(..9).unwrap_or(digits);
    // (what is finer than a nanosecond is cut off)
    let number: u32 = most.parse().ok()?;
    Some((number * 10_u32.pow(9 - u32::try_from(most.len()).ok()?), rest))
}

fn time(text: &str) -> Option<(Time, &str)> {
    let (hour, rest) = two(text, 23)?;
    let (minute, rest) = two(rest.strip_prefix(':')?, 59)?;
    let Some(seconds) = rest.strip_prefix(':') else {
        return Some((Time { hour, minute, second: None, nanosecond: None }, rest));
    };
    let (second, rest) = two(seconds, 60)?;
    let (nanosecond, rest) = match rest.strip_prefix('.') {
        Some(fraction) => nanosecond(fraction).map(|(number, rest)| (Some(number), rest))?,
        None => (None, rest),
    };
    Some((Time { hour, minute, second: Some(second), nanosecond }, rest))
}

fn offset(text: &str) -> Option<Offset> {
    if text == "Z" || text == "z" {
        return Some(Offset::Z);
    }
    let is_west = text.starts_with('-');
    let (hours, rest) = two(text.strip_prefix(['+', '-'])?, 23)?;
    let (minutes, rest) = two(rest.strip_prefix(':')?, 59)?;
    let all = i16::from(hours) * 60 + i16::from(minutes);
    rest.is_empty().then_some(Offset::Minutes(if is_west { -all } else { all }))
}

fn read(text: &str) -> Option<Datetime> {
    let Some((date, rest)) = date(text) else {
        let (time, rest) = time(text)?;
        return rest.is_empty().then_some(Datetime { date: None, time: Some(time), offset: None });
    };
    if rest.is_empty() {
        return Some(Datetime { date: Some(date), time: None, offset: None });
    }
    let (time, rest) = time(rest.strip_prefix(['T', 't', ' '])?)?;
    let offset = if rest.is_empty() { None } else { Some(offset(rest)?) };
    Some(Datetime { date: Some(date), time: Some(time), offset })
}
