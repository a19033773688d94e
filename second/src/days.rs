//! Days as numbers yyyymmdd.

pub const FIRST_YEAR: u32 = 1;
pub const LAST_YEAR: u32 = 9999;

/// A period may not have more days than this.
pub const LONGEST_PERIOD: usize = 1_096;

fn is_leap_year(year: u32) -> bool {
    (year % 4 == 0 && year % 100 != 0) || year % 400 == 0
}

fn days_of_month(year: u32, month: u32) -> u32 {
    match month {
        4 | 6 | 9 | 11 => 30,
        2 if is_leap_year(year) => 29,
        2 => 28,
        _ => 31,
    }
}

fn parts(date: u32) -> (u32, u32, u32) {
    (date / 10_000, date / 100 % 100, date % 100)
}

pub fn is_day(date: u32) -> bool {
    let (year, month, day) = parts(date);
    (FIRST_YEAR..=LAST_YEAR).contains(&year) && (1..=12).contains(&month) && (1..=days_of_month(year, month)).contains(&day)
}

/// The day after a day; `None` after the very last one, and for what is no day.
pub fn next_day(date: u32) -> Option<u32> {
    if !is_day(date) {
        return None;
    }
    let (year, month, day) = parts(date);
    let next = if day < days_of_month(year, month) {
        date + 1
    } else if month < 12 {
        year * 10_000 + (month + 1) * 100 + 1
    } else {
        (year + 1) * 10_000 + 101
    };
    is_day(next).then_some(next)
}

/// The day before a day; `None` before the very first one, and for what is no day.
pub fn day_before(date: u32) -> Option<u32> {
    if !is_day(date) {
        return None;
    }
    let (year, month, day) = parts(date);
    let before = if day > 1 {
        date - 1
    } else if month > 1 {
        year * 10_000 + (month - 1) * 100 + days_of_month(year, month - 1)
    } else {
        (year - 1) * 10_000 + 1231
    };
    is_day(before).then_some(before)
}

/// All days from `start` to `end`, both included, or `None` if they make no allowed period.
pub fn period(start: u32, end: u32) -> Option<Vec<u32>> {
    if !is_day(start) || !is_day(end) || end < start {
        return None;
    }
    let mut days = vec![start];
    let mut day = start;
    while day != end {
        day = next_day(day)?;
        days.push(day);
        if days.len() > LONGEST_PERIOD {
            return None;
        }
    }
    Some(days)
}
