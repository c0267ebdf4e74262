//! Dates of every sort: real ones and others, those about the limit of an instant, every day within it.

use super::places::{YEAR_2024, small};
use super::{Filled, Sample, epoch_line};
use crate::description::HEADER;
use crate::description::calendar::{Calendar, SECOND, STEP, days_of_month};
use crate::files::FileCall;
use crate::inputs::integers::INSTANT_LIMIT;
use crate::inputs::random::Random;

/// The time systems that the dates are tried under: one is not taken, so that no instant is worked out.
const TIME_SYSTEMS: [[u8; 3]; 3] = [*b"UTC", *b"GPS", *b"GAL"];

/// Years with and without a 29 February, about the limit, and at the ends.
const YEARS: [i64; 30] = [
    0, 1, 4, 100, 400, 1582, 1600, 1700, 1752, 1842, 1843, 1844, 1899, 1900, 1904, 1969, 1970,
    1972, 1999, 2000, 2001, 2023, 2024, 2095, 2096, 2097, 2100, 2400, 9998, 9999,
];

/// The leap seconds about the limit.
const LEAP_SECONDS: [i16; 8] = [i16::MIN, i16::MIN + 1, -1, 0, 1, 18, 37, i16::MAX];

/// The file whose second epoch is at this date.
pub fn at(calendar: &Calendar, time_system: [u8; 3], leap_seconds: i16) -> Sample {
    let mut sample = small(time_system, Filled::Blanks, b"", b"EOF");
    sample.leap_seconds = leap_seconds;
    sample.lines[HEADER.len() + 4] = epoch_line(calendar, Filled::Blanks);
    sample
}

/// Months 0 to 13 and the first and last days of them in many years, and times of day that are none.
pub fn about_dates(visit: &mut impl FnMut(FileCall)) {
    let morning = Calendar::of(YEAR_2024);
    for time_system in TIME_SYSTEMS {
        for year in YEARS {
            for month in 0..=13 {
                for day in [0, 1, 28, 29, 30, 31, 32] {
                    let date = Calendar {
                        year,
                        month,
                        day,
                        ..morning
                    };
                    visit(at(&date, time_system, 18).call());
                }
            }
        }
        for hour in [0, 1, 23, 24, 25, 99] {
            for minute in [0, 1, 59, 60, 99] {
                for second in [
                    0,
                    1,
                    5_999_999_999,
                    6_000_000_000,
                    6_000_000_001,
                    9_999_999_999,
                ] {
                    let time = Calendar {
                        hour,
                        minute,
                        second,
                        ..morning
                    };
                    visit(at(&time, time_system, 18).call());
                }
            }
        }
    }
}

/// Just within and just beyond both ends of the limit, before and after the leap seconds are taken off.
pub fn about_the_limit(visit: &mut impl FnMut(FileCall)) {
    let limit = i128::from(INSTANT_LIMIT);
    for leap_seconds in LEAP_SECONDS {
        let leap = i128::from(leap_seconds) * SECOND;
        for end in [limit, -limit] {
            for centre in [end, end + leap, end - leap] {
                for steps in [0, STEP, 2 * STEP, SECOND, SECOND + STEP, 60 * SECOND] {
                    for instant in [centre - steps, centre + steps] {
                        for time_system in TIME_SYSTEMS {
                            let date = Calendar::of(instant);
                            visit(at(&date, time_system, leap_seconds).call());
                        }
                    }
                }
            }
        }
    }
}

/// Every day from one year to another, at any time of it.
pub fn every_day(random: &mut Random, years: [i64; 2], visit: &mut impl FnMut(FileCall)) {
    for year in years[0]..=years[1] {
        for month in 1..=12 {
            for day in 1..=days_of_month(year, month) {
                let date = Calendar {
                    year,
                    month,
                    day,
                    ..any_time(random)
                };
                let time_system = random.pick(&TIME_SYSTEMS[..2]);
                let leap_seconds = random.pick(&LEAP_SECONDS);
                visit(at(&date, time_system, leap_seconds).call());
            }
        }
    }
}

/// Dates that may be real or not, of any year.
pub fn any_date(random: &mut Random) -> FileCall {
    let any = any_time(random);
    let date = Calendar {
        year: random.count(0, 9999),
        month: random.count(1, 12),
        day: random.count(1, 31),
        ..any
    };
    let time_system = random.pick(&TIME_SYSTEMS);
    at(&date, time_system, 18).call()
}

/// Any time of day.
fn any_time(random: &mut Random) -> Calendar {
    let second = random.count(0, 5_999_999_999);
    Calendar {
        hour: random.count(0, 23),
        minute: random.count(0, 59),
        second: random.pick(&[0, 5_999_999_999, second, second]),
        ..Calendar::of(YEAR_2024)
    }
}
