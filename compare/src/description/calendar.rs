//! The Gregorian calendar, years and months counted one by one.

/// Nanoseconds in a second.
pub const SECOND: i128 = 1_000_000_000;

/// Nanoseconds in a day.
const DAY: i128 = 86_400 * SECOND;

/// The step of the last decimal of a second, in nanoseconds.
pub const STEP: i128 = 10;

/// The year that instants are counted from.
const FIRST: i64 = 1970;

/// The numbers of an epoch line; any numbers at all.
#[derive(Clone, Copy, PartialEq)]
pub struct Calendar {
    pub year: i64,
    pub month: i64,
    pub day: i64,
    pub hour: i64,
    pub minute: i64,
    /// Hundred-millionths of a second.
    pub second: i64,
}

impl Calendar {
    /// Whether there is such a date and time.
    pub fn is_real(&self) -> bool {
        (1..=9999).contains(&self.year)
            && (1..=12).contains(&self.month)
            && (1..=days_of_month(self.year, self.month)).contains(&self.day)
            && (0..24).contains(&self.hour)
            && (0..60).contains(&self.minute)
            && (0..60).contains(&(self.second / 100_000_000))
    }

    /// The nanoseconds since 1970 of a real date and time.
    pub fn nanoseconds(&self) -> i128 {
        let years_after: i64 = (FIRST..self.year).map(days_of_year).sum();
        let years_before: i64 = (self.year..FIRST).map(days_of_year).sum();
        let months: i64 = (1..self.month)
            .map(|month| days_of_month(self.year, month))
            .sum();
        let days = years_after - years_before + months + self.day - 1;
        let minutes =
            (i128::from(days) * 24 + i128::from(self.hour)) * 60 + i128::from(self.minute);
        minutes * 60 * SECOND + i128::from(self.second) * STEP
    }

    /// The calendar of an instant, cut to the last decimal toward the earlier.
    pub fn of(instant: i128) -> Calendar {
        let mut days = instant.div_euclid(DAY) as i64;
        let rest = instant.rem_euclid(DAY);
        let mut year = FIRST;
        while days < 0 {
            year -= 1;
            days += days_of_year(year);
        }
        while days >= days_of_year(year) {
            days -= days_of_year(year);
            year += 1;
        }
        let mut month = 1;
        while days >= days_of_month(year, month) {
            days -= days_of_month(year, month);
            month += 1;
        }
        Calendar {
            year,
            month,
            day: days + 1,
            hour: (rest / (3600 * SECOND)) as i64,
            minute: (rest / (60 * SECOND) % 60) as i64,
            second: (rest % (60 * SECOND) / STEP) as i64,
        }
    }
}

/// Whether the year has a 29 February.
fn is_leap_year(year: i64) -> bool {
    year % 4 == 0 && (year % 100 != 0 || year % 400 == 0)
}

/// The days of a year.
fn days_of_year(year: i64) -> i64 {
    if is_leap_year(year) { 366 } else { 365 }
}

/// The days of a month from 1 to 12.
pub fn days_of_month(year: i64, month: i64) -> i64 {
    match month {
        2 if is_leap_year(year) => 29,
        2 => 28,
        4 | 6 | 9 | 11 => 30,
        _ => 31,
    }
}
