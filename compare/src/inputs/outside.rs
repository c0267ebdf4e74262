//! Inputs about the ends of a table: instants, closest approaches, and recordings of which some, all or no samples lie outside.

use super::integers::INSTANT_LIMIT;
use super::orbits::{self, Orbit};
use super::passes::{self, Scene};
use super::random::Random;
use super::recordings::Recording;
use super::tables::{self, SECOND, Table};
use crate::calls::{Call, Entry};
use crate::expected;
use crate::place::{self, Reported};
use crate::reference::{self, TabulatedOrbit};

/// Draws a call of the fit or of the pass; some kinds are made with the shift that the Rust reports of another call.
pub type Kind = fn(&mut Random, Entry) -> Call;

/// The kinds of recordings.
pub const KINDS: [Kind; 12] = [
    |random, _| spread(random, [0, 9, 0]),
    |random, _| spread(random, [7, 0, 0]),
    |random, _| spread(random, [0, 0, 7]),
    |random, _| spread(random, [3, 5, 0]),
    |random, _| spread(random, [0, 5, 3]),
    |random, _| spread(random, [3, 4, 2]),
    alone,
    on_the_ends,
    truncated,
    in_pairs,
    without_a_position,
    by_a_table_of_last_week,
];

/// How far from an end a sample lies under the shift, in nanoseconds: on it and beside it; and up to a microsecond away.
const BESIDE: [i64; 3] = [-1, 0, 1];
const WITHIN_A_MICROSECOND: [i64; 8] = [-1000, -999, -500, -1, 1, 500, 999, 1000];

/// The first candidate of a fit is this far before the centre, and the candidates of its last stage are so far from each other.
const FIRST_CANDIDATE: i64 = 15 * SECOND;
const LAST_STEP: i64 = 10_000;

/// How late or early a clock is at the most; the candidates about a centre of zero reach farther.
const LATEST: i64 = 14 * SECOND;

/// The names of the six instants at the ends.
pub const AT_THE_ENDS: [&str; 6] = [
    "1 ns before the first",
    "at the first",
    "1 ns after the first",
    "1 ns before the last",
    "at the last",
    "1 ns after the last",
];

/// The first and the last instant.
pub fn ends(table: &Table) -> [i64; 2] {
    let last = table.instants.len() - 1;
    [0, last].map(|row| table.instants[row])
}

/// The instants a nanosecond before the first coordinate, at it and a nanosecond after it, then those of the last.
pub fn at_the_ends(table: &Table) -> [i64; 6] {
    let [first, last] = ends(table);
    [first - 1, first, first + 1, last - 1, last, last + 1]
}

/// The name of an instant that is one of these.
pub fn name_at_the_ends(table: &Table, instant: i64) -> Option<&'static str> {
    let k = at_the_ends(table).iter().position(|&n| n == instant);
    k.map(|k| AT_THE_ENDS[k])
}

/// These instants, and one up to some minutes before the table, one within it and one after it.
pub fn about_the_ends(random: &mut Random, table: &Table) -> [i64; 9] {
    let [first, last] = ends(table);
    let far = random.count(2, 200 * SECOND);
    let [a, b, c, d, e, f] = at_the_ends(table);
    let within = random.count(first + 2, last - 2);
    [a, b, c, d, e, f, first - far, within, last + far]
}

/// The table of a low satellite with 10 to 20 rows about a minute apart, even or uneven, anywhere in the range; and its orbit.
pub fn low(random: &mut Random) -> (Orbit, Table) {
    let orbit = Orbit::low(random);
    let gap = 60 * SECOND;
    let jitter = random.pick(&[0, 0, gap / 4]);
    let rows = 10 + random.count(0, 10);
    let offsets: Vec<i64> = (0..rows)
        .map(|k| k * gap + random.count(-jitter, jitter))
        .collect();
    let instants = tables::placed(random, &offsets);
    (orbit, Table::of(&orbit, instants))
}

/// A satellite that is overhead at an instant; the one that is given is up to 50 minutes away, a whole number of seconds.
pub fn overhead_at(random: &mut Random, table: Table, closest: i64) -> Call {
    let orbit = reference::orbit(&table);
    let motion = orbit.propagate(reference::instant(closest));
    let (place, _) = motion.expect("the table has no refused window");
    let away = random.count(300, 2990) * SECOND;
    let later = closest + away <= INSTANT_LIMIT;
    let earlier = closest - away >= -INSTANT_LIMIT;
    Call {
        observer: orbits::on_the_ground(place),
        instant: if later && (!earlier || random.one_in(2)) {
            closest + away
        } else {
            closest - away
        },
        table,
        ..Call::default()
    }
}

/// A low satellite that passes an observer about the middle of its table.
fn scene(random: &mut Random) -> Scene {
    let (orbit, table) = low(random);
    Scene::of(random, &orbit, table)
}

/// So many samples truly before the table, within it about the passing, and after it.
fn spread(random: &mut Random, counts: [i64; 3]) -> Call {
    loop {
        let scene = scene(random);
        let truly = instants_about(random, &scene, counts);
        if truly.iter().all(|n| n.abs() <= INSTANT_LIMIT - LATEST) {
            return recorded(random, scene, &truly);
        }
    }
}

/// So many instants before the table, within it about the passing, and after it; they rise, each in a second of its own.
fn instants_about(random: &mut Random, scene: &Scene, counts: [i64; 3]) -> Vec<i64> {
    let [before, within, after] = counts;
    let apart = random.count(SECOND, 6 * SECOND);
    let [first, last] = ends(&scene.table);
    let mut truly: Vec<i64> = (1..=before).map(|k| first - k * apart).collect();
    truly.reverse();
    truly.extend((0..within).map(|k| scene.passing + (k - within / 2) * apart));
    truly.extend((1..=after).map(|k| last + k * apart));
    truly
}

/// What is heard without noise at these instants by a clock that is late or early by a multiple of the search's last step.
fn recorded(random: &mut Random, scene: Scene, truly: &[i64]) -> Call {
    let steps = LATEST / LAST_STEP;
    let late = random.count(-steps, steps) * LAST_STEP;
    let centre = passes::centre(random);
    let offset = random.between(-5e3, 5e3);
    let mut recording = scene.heard(truly, late, centre);
    recording.instants.iter_mut().for_each(|n| *n = limited(*n));
    recording.frequencies.iter_mut().for_each(|f| *f += offset);
    let measured = limited(scene.passing + late);
    scene.call(random, recording, centre, measured)
}

/// The instant, or the end of the range that it is past.
fn limited(instant: i64) -> i64 {
    instant.clamp(-INSTANT_LIMIT, INSTANT_LIMIT)
}

/// One sample: the first candidate wins. The satellite is overhead so long before an end of the table that this candidate moves the sample to that end,
/// beside it, or some seconds from it.
fn alone(random: &mut Random, _: Entry) -> Call {
    let (_, table) = low(random);
    let end = random.pick(&ends(&table));
    let away = random.pick(&[-9 * SECOND, -1, 0, 1, 9 * SECOND]);
    let call = overhead_at(random, table, end + away - FIRST_CANDIDATE);
    let centre = passes::centre(random);
    Call {
        recording: Recording {
            instants: vec![call.instant],
            frequencies: vec![centre],
        },
        centre,
        areas: [1 + random.below(3), 1],
        ..call
    }
}

/// A sample on each end of the table or a nanosecond beside it, under the shift.
fn on_the_ends(random: &mut Random, entry: Entry) -> Call {
    let call = from_end_to_end(random);
    let shift = shift(entry, &call);
    moved_to_the_ends(random, call, shift, &BESIDE)
}

/// Samples from the first coordinate to the last.
fn from_end_to_end(random: &mut Random) -> Call {
    let scene = scene(random);
    let [first, last] = ends(&scene.table);
    let mut truly = vec![first];
    truly.extend(instants_about(random, &scene, [0, 5, 0]));
    truly.push(last);
    recorded(random, scene, &truly)
}

/// The shift that is reported; 0 where there is no report.
fn shift(entry: Entry, call: &Call) -> f64 {
    let answer = expected::answer(entry, call);
    Reported::of(entry, call, &answer).map_or(0.0, |reported| reported.shift)
}

/// The call with its first and its last sample so far from the table's ends when this shift moves them; the shift that is found then is mostly the same.
fn moved_to_the_ends(random: &mut Random, mut call: Call, shift: f64, away: &[i64]) -> Call {
    let moves = place::moves(shift);
    let [first, last] = ends(&call.table).map(|end| limited(end + random.pick(away) + moves));
    let instants = &mut call.recording.instants;
    let samples = instants.len();
    instants[0] = first;
    instants[samples - 1] = last;
    call
}

/// Samples about the ends of which another number would lie outside if the shift were not truncated to microseconds. Few such shifts are above zero.
fn truncated(random: &mut Random, entry: Entry) -> Call {
    let above = random.one_in(5);
    loop {
        let call = from_end_to_end(random);
        let shift = shift(entry, &call);
        let micros = shift * 1e6;
        if micros.trunc() == micros.round() || above != (shift > 0.0) {
            continue;
        }
        let call = moved_to_the_ends(random, call, shift, &WITHIN_A_MICROSECOND);
        let answer = expected::answer(entry, &call);
        let reported = Reported::of(entry, &call, &answer);
        if reported.is_some_and(|reported| reported.is_decided_by_truncation()) {
            return call;
        }
    }
}

/// The samples on the ends, each made two, one as many microseconds before it as the other after it: their mean is where it was, and one of them can lie
/// outside alone.
fn in_pairs(random: &mut Random, entry: Entry) -> Call {
    let mut call = on_the_ends(random, entry);
    let apart = random.count(1, 50) * 1_000;
    let Recording {
        instants,
        frequencies,
    } = &mut call.recording;
    let pairs = instants.iter().flat_map(|n| [n - apart, n + apart]);
    *instants = pairs.map(limited).collect();
    *frequencies = frequencies.iter().flat_map(|&f| [f, f]).collect();
    call.areas = [instants.len(); 2];
    call
}

/// Samples before or after a table whose rows are so close at that end that they have no position there, and more samples within it.
fn without_a_position(random: &mut Random, _: Entry) -> Call {
    let mut scene = Scene::draw(random, false, 20);
    let instants = &mut scene.table.instants;
    let (close, counts) = random.pick(&[(1, [4, 9, 0]), (17, [0, 9, 4])]);
    instants[close + 1] = instants[close] + 1;
    let truly = instants_about(random, &scene, counts);
    recorded(random, scene, &truly)
}

/// Samples a week after those that the table is for.
fn by_a_table_of_last_week(random: &mut Random, _: Entry) -> Call {
    let uneven = random.one_in(2);
    let scene = Scene::draw(random, uneven, 20);
    let truly = instants_about(random, &scene, [0, 9, 0]);
    let mut call = recorded(random, scene, &truly);
    let instants = call.recording.instants.iter_mut();
    for instant in instants.chain([&mut call.instant]) {
        *instant += 7 * 86_400 * SECOND;
    }
    call
}
