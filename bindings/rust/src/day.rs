//! Days of the calendar.

use crate::FieldError;
use std::fmt;

const MONTHS: [&str; 12] =
    ["January", "February", "March", "April", "May", "June", "July", "August", "September", "October", "November", "December"];

/// A Gregorian day from 1 January of year 1 to 31 December 9999. It is shown as `30 June 2024`.
///
/// ```
/// use rafttwine::Day;
///
/// assert_eq!(Day::new(2024, 6, 30)?.number(), 20240630);
/// assert_eq!(Day::new(2024, 6, 31).unwrap_err().to_string(), "Day.day: 31, and June 2024 has 30 days");
/// # Ok::<(), rafttwine::FieldError>(())
/// ```
#[derive(Clone, Copy, PartialEq, Eq, PartialOrd, Ord, Hash)]
pub struct Day(u32);

impl Day {
    /// 1 January of year 1.
    pub const FIRST: Day = Day(10_101);
    /// 31 December 9999.
    pub const LAST: Day = Day(99_991_231);

    /// The day of a year, a month from 1 and a day from 1; an error if the calendar lacks it.
    pub fn new(year: u32, month: u32, day: u32) -> Result<Day, FieldError> {
        if !(1..=9999).contains(&year) {
            return Err(FieldError::new("Day.year", format!("{year}, and 1 to 9999 are allowed")));
        }
        if !(1..=12).contains(&month) {
            return Err(FieldError::new("Day.month", format!("{month}, and 1 to 12 are allowed")));
        }
        let most = days_in(year, month);
        if !(1..=most).contains(&day) {
            let name = MONTHS[month as usize - 1];
            return Err(FieldError::new("Day.day", format!("{day}, and {name} {year} has {most} days")));
        }
        Ok(Day(year * 10_000 + month * 100 + day))
    }

    /// The day of a number yyyymmdd.
    pub fn of_number(number: u32) -> Result<Day, FieldError> {
        Day::new(number / 10_000, number / 100 % 100, number % 100)
    }

    /// The number yyyymmdd.
    pub fn number(self) -> u32 {
        self.0
    }

    /// The year.
    pub fn year(self) -> u32 {
        self.0 / 10_000
    }

    /// The month, from 1.
    pub fn month(self) -> u32 {
        self.0 / 100 % 100
    }

    /// The day of the month, from 1.
    pub fn day(self) -> u32 {
        self.0 % 100
    }
}

fn days_in(year: u32, month: u32) -> u32 {
    let leap = year % 4 == 0 && (year % 100 != 0 || year % 400 == 0);
    match month {
        2 if leap => 29,
        2 => 28,
        4 | 6 | 9 | 11 => 30,
        _ => 31,
    }
}

impl fmt::Display for Day {
    fn fmt(&self, to: &mut fmt::Formatter<'_>) -> fmt::Result {
        to.pad(&format!("{} {} {}", self.day(), MONTHS[self.month() as usize - 1], self.year()))
    }
}

impl fmt::Debug for Day {
    fn fmt(&self, to: &mut fmt::Formatter<'_>) -> fmt::Result {
        write!(to, "{:04}-{:02}-{:02}", self.year(), self.month(), self.day())
    }
}
