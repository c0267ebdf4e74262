//! The cases of the fleet board.

use compare::boards::BoardEntry;
use compare::fleet::ENTRIES;
use compare::inputs::boards::{DOUBLES, all_sorts, entry, of_count};
use compare::inputs::doubles::power_of_two;
use compare::inputs::random::Random;
use compare::inputs::tables::PRESENT;

/// How many random lists there are, and how many entries the longest of them has.
const RANDOM: usize = 8;
const LONGEST_RANDOM: usize = 12;

/// All cases.
pub fn cases() -> Vec<Vec<BoardEntry>> {
    let mut random = Random::new(97);
    let mut list = counts();
    list.extend(superseding());
    list.extend(sums());
    list.extend(not_finite());
    let all_sorts = all_sorts();
    list.extend((0..RANDOM).map(|_| {
        let sorts = random.pick(&all_sorts);
        let count = 2 + random.below(LONGEST_RANDOM - 1);
        of_count(&mut random, sorts, count)
    }));
    list
}

/// So many entries, each of another satellite, with clock offsets of whole seconds.
fn all_different(count: usize) -> Vec<BoardEntry> {
    let numbers = 0..count as u16;
    numbers
        .map(|k| entry(k, PRESENT, 0.5, f64::from(k)))
        .collect()
}

/// The same of one satellite, each a nanosecond later than the one before.
fn all_of_one(count: usize) -> Vec<BoardEntry> {
    let mut list = all_different(count);
    for (k, entry) in list.iter_mut().enumerate() {
        entry.satellite = 5;
        entry.instant += k as i64;
    }
    list
}

/// No entry, one, as many as there may be, one and two more, also with a double that is not finite.
fn counts() -> Vec<Vec<BoardEntry>> {
    let mut list: Vec<Vec<BoardEntry>> = [0, 1, 2, ENTRIES, ENTRIES + 1, ENTRIES + 2]
        .map(all_different)
        .into();
    list.push(all_of_one(ENTRIES));
    let mut equal = all_of_one(ENTRIES);
    equal.iter_mut().for_each(|entry| entry.instant = -PRESENT);
    list.push(equal);
    let mut too_many = all_of_one(ENTRIES + 1);
    too_many[7].rmse = f64::NAN;
    list.push(too_many);
    list
}

/// Two entries and what decides between them: the instant at every place of its range, the RMSE, zeros of both signs, the front; and satellites alike.
fn superseding() -> Vec<Vec<BoardEntry>> {
    let (least, one) = (power_of_two(-1074), 1.0);
    let ranks: [[(i64, f64); 2]; 12] = [
        [(PRESENT, 0.2), (PRESENT + 1, 0.4)],
        [(PRESENT + 1, 0.4), (PRESENT, 0.2)],
        [(i64::MIN, one), (i64::MAX, one)],
        [(i64::MAX, one), (i64::MIN, one)],
        [(i64::MIN, one), (i64::MIN + 1, one)],
        [(i64::MAX - 1, one), (i64::MAX, one)],
        [(PRESENT, 0.4), (PRESENT, 0.2)],
        [(-1, -one), (-1, least)],
        [(0, 0.0), (0, -least)],
        [(i64::MAX, 0.0), (i64::MAX, -0.0)],
        [(i64::MIN, -0.0), (i64::MIN, 0.0)],
        [(PRESENT, 0.2), (PRESENT, 0.2)],
    ];
    let two = ranks.map(|[a, b]| vec![entry(9, a.0, a.1, 1.0), entry(9, b.0, b.1, 2.0)]);
    let mut list: Vec<Vec<BoardEntry>> = two.into();
    let alike = [[0, u16::MAX], [1, 0x101], [0x7fff, 0xffff]];
    list.extend(alike.map(|[a, b]| vec![entry(a, 0, 0.2, 1.0), entry(b, 1, 0.1, 2.0)]));
    list.push(three_satellites());
    list
}

/// Three satellites among seven entries, one decided by the instant, one by the RMSE and one by the front.
fn three_satellites() -> Vec<BoardEntry> {
    vec![
        entry(3, PRESENT, 0.3, 1.0),
        entry(1, PRESENT, 0.3, 2.0),
        entry(2, PRESENT, 0.3, 4.0),
        entry(2, PRESENT, 0.3, 8.0),
        entry(3, PRESENT, 0.2, 16.0),
        entry(1, PRESENT - 1, 0.1, 32.0),
        entry(3, PRESENT, 0.2, 64.0),
    ]
}

/// Sums that lose numbers by their order, that overflow or do not, and what is next to nothing.
fn sums() -> Vec<Vec<BoardEntry>> {
    let (max, least) = (f64::MAX, power_of_two(-1074));
    let offsets: [&[f64]; 9] = [
        &[1e16, 1.0, -1e16],
        &[1e16, -1e16, 1.0],
        &[max, max],
        &[-max, -max, max],
        &[max, -max, max],
        &[0.1, 0.2, 0.3],
        &[-0.0, -0.0],
        &[least, 0.0],
        &[least, least, least, 0.0],
    ];
    let board = |offsets: &[f64]| -> Vec<BoardEntry> {
        let mut list = all_different(offsets.len());
        list.iter_mut()
            .zip(offsets)
            .for_each(|(entry, &x)| entry.clock_offset = x);
        list
    };
    offsets.map(board).into()
}

/// Each double of an entry that survives, of one that is superseded, and of the last of as many as there may be.
fn not_finite() -> Vec<Vec<BoardEntry>> {
    let mut list = Vec::new();
    for (set, x) in DOUBLES
        .into_iter()
        .zip([f64::NAN, f64::INFINITY, f64::NEG_INFINITY])
    {
        for place in [0, 2] {
            let mut entries = all_of_one(3);
            set(&mut entries[place], x);
            list.push(entries);
        }
    }
    let mut full = all_different(ENTRIES);
    full[ENTRIES - 1].clock_offset = f64::NAN;
    list.push(full);
    list
}
