//! Lists of a fleet board's entries: satellites, instants, RMSEs and clock offsets of every sort.

use super::doubles::{self, neighbours, power_of_two};
use super::integers;
use super::random::Random;
use super::tables::{PRESENT, SECOND};
use crate::boards::BoardEntry;
use crate::fleet::ENTRIES;

/// The longest lists: two more than there may be.
pub const LONGEST: usize = ENTRIES + 2;

/// Draws so many values of one field.
type Sort<T> = fn(&mut Random, usize) -> Vec<T>;

/// How the satellites lie.
const SATELLITES: [Sort<u16>; 4] = [of_one, of_few, of_many, all_different];

/// How the instants lie.
const INSTANTS: [Sort<i64>; 5] = [of_our_days, equal, side_by_side, at_the_ends, anywhere];

/// The sorts of RMSE; a board takes any, also one below zero.
const RMSES: [Sort<f64>; 6] = [ordinary, few, zeros, about_zero, beside_each_other, finite];

/// The sorts of clock offset.
const OFFSETS: [Sort<f64>; 6] = [ordinary, unlike, huge, subnormal, zeros, finite];

/// One sort of each field.
#[derive(Clone, Copy)]
pub struct Sorts {
    satellites: Sort<u16>,
    instants: Sort<i64>,
    rmses: Sort<f64>,
    offsets: Sort<f64>,
}

/// Every sort of each field with every one of the others.
pub fn all_sorts() -> Vec<Sorts> {
    let mut list = Vec::new();
    for satellites in SATELLITES {
        for instants in INSTANTS {
            for rmses in RMSES {
                list.extend(OFFSETS.map(|offsets| Sorts {
                    satellites,
                    instants,
                    rmses,
                    offsets,
                }));
            }
        }
    }
    list
}

/// So many entries of these sorts.
pub fn of_count(random: &mut Random, sorts: Sorts, count: usize) -> Vec<BoardEntry> {
    let satellites = (sorts.satellites)(random, count);
    let instants = (sorts.instants)(random, count);
    let rmses = (sorts.rmses)(random, count);
    let offsets = (sorts.offsets)(random, count);
    let frequencies = finite(random, count);
    let entry = |k| BoardEntry {
        satellite: satellites[k],
        instant: instants[k],
        clock_offset: offsets[k],
        frequency_offset: frequencies[k],
        rmse: rmses[k],
    };
    (0..count).map(entry).collect()
}

/// A list of these sorts; one in eight has up to three doubles that are not finite.
pub fn draw(random: &mut Random, sorts: Sorts) -> Vec<BoardEntry> {
    let count = count(random);
    let mut entries = of_count(random, sorts, count);
    if count > 0 && random.one_in(8) {
        for _ in 0..1 + random.below(3) {
            let (place, faults) = (random.below(count), not_finite(random));
            let (set, x) = (random.pick(&DOUBLES), random.pick(&faults));
            set(&mut entries[place], x);
        }
    }
    entries
}

/// How many entries: often few, now and then none, just as many as there may be, or too many.
fn count(random: &mut Random) -> usize {
    match random.below(40) {
        0 => 0,
        1 => ENTRIES,
        2 => 1 + random.below(LONGEST),
        3 => ENTRIES + 1 + random.below(LONGEST - ENTRIES),
        4..24 => 1 + random.below(8),
        _ => 1 + random.below(ENTRIES),
    }
}

/// Sets each double of an entry.
pub const DOUBLES: [fn(&mut BoardEntry, f64); 3] = [
    |entry, x| entry.clock_offset = x,
    |entry, x| entry.frequency_offset = x,
    |entry, x| entry.rmse = x,
];

/// Both infinities and a NaN.
fn not_finite(random: &mut Random) -> [f64; 3] {
    let nan = random.pick(&doubles::nans());
    [f64::INFINITY, f64::NEG_INFINITY, nan]
}

/// The list with each double of each entry in turn not finite, in three ways.
pub fn every_fault(random: &mut Random, entries: &[BoardEntry]) -> Vec<Vec<BoardEntry>> {
    let mut lists = Vec::new();
    for place in 0..entries.len() {
        for set in DOUBLES {
            lists.extend(not_finite(random).map(|x| {
                let mut list = entries.to_vec();
                set(&mut list[place], x);
                list
            }));
        }
    }
    lists
}

/// An ordinary board: two entries of each satellite, in any order, at instants of our days.
pub fn two_of_each(random: &mut Random, count: usize) -> Vec<BoardEntry> {
    let sorts = Sorts {
        satellites: of_one,
        instants: of_our_days,
        rmses: ordinary,
        offsets: ordinary,
    };
    let mut entries = of_count(random, sorts, count);
    for (k, entry) in entries.iter_mut().enumerate() {
        entry.satellite = (k / 2) as u16;
    }
    random.shuffle(&mut entries);
    entries
}

/// An entry whose frequency offset is an ordinary one.
pub fn entry(satellite: u16, instant: i64, rmse: f64, clock_offset: f64) -> BoardEntry {
    BoardEntry {
        satellite,
        instant,
        clock_offset,
        frequency_offset: 100.0,
        rmse,
    }
}

/// Every list of so many entries of two satellites, three instants and three RMSEs, two of them zeros. The clock offsets are powers of two by their
/// places: of up to four entries every choice of survivors has another mean.
pub fn every_list(length: usize, visit: &mut impl FnMut(&[BoardEntry])) {
    let choices = every_entry();
    let chosen = |number: usize, place: usize| BoardEntry {
        clock_offset: power_of_two(place as i32),
        ..choices[number / choices.len().pow(place as u32) % choices.len()]
    };
    for number in 0..choices.len().pow(length as u32) {
        let list: Vec<BoardEntry> = (0..length).map(|place| chosen(number, place)).collect();
        visit(&list);
    }
}

/// The entries that those lists are made of.
fn every_entry() -> Vec<BoardEntry> {
    let mut list = Vec::new();
    for satellite in [0, u16::MAX] {
        for instant in [i64::MIN, 0, i64::MAX] {
            list.extend([0.0, -0.0, 1.0].map(|rmse| entry(satellite, instant, rmse, 0.0)));
        }
    }
    list
}

/// So many values, each drawn by itself.
fn each<T>(count: usize, draw: impl FnMut() -> T) -> Vec<T> {
    let mut list = Vec::new();
    list.resize_with(count, draw);
    list
}

/// The same satellite everywhere.
fn of_one(random: &mut Random, count: usize) -> Vec<u16> {
    vec![random.bits() as u16; count]
}

/// Two to five satellites; two numbers may differ by their upper byte alone.
fn of_few(random: &mut Random, count: usize) -> Vec<u16> {
    let first = random.bits() as u16;
    let apart = random.pick(&[1, 0x100, 0x8000, 0x1357]);
    let satellites = 2 + random.below(4) as u16;
    each(count, || {
        let number = random.below(satellites as usize) as u16;
        first.wrapping_add(number.wrapping_mul(apart))
    })
}

/// Satellites of about as many numbers as there are entries.
fn of_many(random: &mut Random, count: usize) -> Vec<u16> {
    each(count, || random.below(count + count / 2) as u16)
}

/// Another satellite in each entry, in any order.
fn all_different(random: &mut Random, count: usize) -> Vec<u16> {
    let apart = random.pick(&[1, 3, 0x100 + 1, 997]);
    let mut list: Vec<u16> = (0..count as u16).map(|k| k.wrapping_mul(apart)).collect();
    random.shuffle(&mut list);
    list
}

/// Within an hour of our days, to the second, so that some are equal.
fn of_our_days(random: &mut Random, count: usize) -> Vec<i64> {
    each(count, || PRESENT + random.count(0, 3600) * SECOND)
}

/// One instant.
fn equal(random: &mut Random, count: usize) -> Vec<i64> {
    vec![integers::of_any_length(random); count]
}

/// A few instants a nanosecond apart: as doubles most of these would be equal.
fn side_by_side(random: &mut Random, count: usize) -> Vec<i64> {
    let first = random.pick(&[0, PRESENT, -PRESENT, 1 << 62, i64::MAX - 2, i64::MIN]);
    each(count, || first + random.count(0, 2))
}

/// Both ends of the range and the middle.
fn at_the_ends(random: &mut Random, count: usize) -> Vec<i64> {
    let places = [i64::MIN, i64::MIN + 1, -1, 0, 1, i64::MAX - 1, i64::MAX];
    each(count, || random.pick(&places))
}

/// Anywhere in the range.
fn anywhere(random: &mut Random, count: usize) -> Vec<i64> {
    each(count, || random.bits() as i64)
}

/// Ordinary numbers of either sign.
fn ordinary(random: &mut Random, count: usize) -> Vec<f64> {
    each(count, || random.between(-20.0, 20.0))
}

/// Three numbers alone.
fn few(random: &mut Random, count: usize) -> Vec<f64> {
    each(count, || random.pick(&[0.25, 0.5, 0.75]))
}

/// Zeros of either sign.
fn zeros(random: &mut Random, count: usize) -> Vec<f64> {
    let negative = random.below(4);
    each(count, || {
        if random.below(3) < negative {
            -0.0
        } else {
            0.0
        }
    })
}

/// Zeros and the least numbers of either sign.
fn about_zero(random: &mut Random, count: usize) -> Vec<f64> {
    let least = [0.0, power_of_two(-1074), f64::MIN_POSITIVE];
    each(count, || {
        let x = random.pick(&least);
        doubles::with_any_sign(random, x)
    })
}

/// One number and the doubles beside it.
fn beside_each_other(random: &mut Random, count: usize) -> Vec<f64> {
    let three = neighbours(random.between(-5.0, 5.0));
    each(count, || random.pick(&three))
}

/// Numbers of any pattern that is finite.
fn finite(random: &mut Random, count: usize) -> Vec<f64> {
    each(count, || {
        loop {
            let x = random.pattern();
            if x.is_finite() {
                return x;
            }
        }
    })
}

/// Numbers of which a sum loses some by its order.
fn unlike(random: &mut Random, count: usize) -> Vec<f64> {
    each(count, || random.pick(&[1e16, -1e16, 1.0, -1.0, 0.1, 3.0]))
}

/// Numbers so great that some of their sums overflow.
fn huge(random: &mut Random, count: usize) -> Vec<f64> {
    each(count, || {
        let x = random.pick(&[f64::MAX, f64::MAX / 2.0, 1e308, power_of_two(970), 1.0]);
        doubles::with_any_sign(random, x)
    })
}

/// Subnormal numbers, now and then a zero.
fn subnormal(random: &mut Random, count: usize) -> Vec<f64> {
    each(count, || doubles::subnormal(random))
}
