//! Calls of the fit and the pass: satellites heard by an observer, and everything that can spoil a candidate.

use super::closest;
use super::orbits::{self, Orbit};
use super::random::Random;
use super::recordings::{self, FREQUENCIES, INSTANTS, Recording};
use super::tables::{self, PRESENT, SECOND, Table};
use crate::calls::Call;
use crate::reference::{self, TabulatedOrbit};

/// The speed of light, in metres for each second.
const LIGHT: f64 = 299_792_458.0;

/// Nanoseconds in a microsecond and in a millisecond.
const MICROSECOND: i64 = 1_000;
const MILLISECOND: i64 = 1_000_000;

/// How long a call is.
#[derive(Clone, Copy)]
pub struct Size {
    /// The rows of the table, at least 20.
    pub rows: usize,
    pub samples: usize,
}

/// Draws a call of about this size.
pub type Kind = fn(&mut Random, Size) -> Call;

/// The kinds whose clock offset is not known beforehand.
pub const KINDS: [Kind; 16] = [
    noisy,
    noisy_unevenly,
    in_any_order,
    alone,
    half_lost,
    lost_at_some_shifts,
    about_two_centres,
    at_rest,
    through_the_observer,
    rising,
    overflowing,
    with_an_infinite_mean,
    with_an_infinite_mean_lost,
    in_nanoseconds,
    far_from_the_table,
    any_table,
];

/// A satellite over an observer.
pub(super) struct Scene {
    pub table: Table,
    pub observer: [f64; 3],
    /// When it is closest.
    pub passing: i64,
}

impl Scene {
    /// A low satellite with a row each minute, which passes about the middle of the table.
    pub fn draw(random: &mut Random, uneven: bool, rows: usize) -> Self {
        let orbit = Orbit::low(random);
        let gap = 60 * SECOND;
        let start = PRESENT + random.count(0, PRESENT / 10);
        let table = if uneven {
            Table::uneven(random, &orbit, start, gap, rows)
        } else {
            Table::even(&orbit, start, gap, rows)
        };
        let middle = gap * rows as i64 / 2;
        let observer = orbit.observer(random, middle as f64 / SECOND as f64);
        let passing = closest_to(&table, observer, start + middle);
        Scene {
            table,
            observer,
            passing: passing + random.count(-SECOND / 2, SECOND / 2),
        }
    }

    /// A satellite that passes an observer about the middle of its table.
    pub fn of(random: &mut Random, orbit: &Orbit, table: Table) -> Self {
        let middle = table.instants[table.instants.len() / 2];
        let after = (middle - table.instants[0]) as f64 / SECOND as f64;
        let observer = orbit.observer(random, after);
        let passing = closest_to(&table, observer, middle);
        Scene {
            table,
            observer,
            passing,
        }
    }

    /// The satellite of an even table, right over the observer so long after its first row.
    fn overhead(orbit: &Orbit, table: Table, after: i64) -> Self {
        let place = orbit.position(after as f64 / SECOND as f64);
        Scene {
            observer: orbits::on_the_ground(place),
            passing: table.instants[0] + after,
            table,
        }
    }

    /// What the observer would hear at these instants of a true clock; the instants are those of a clock that is late.
    pub fn heard(&self, truly: &[i64], late: i64, centre: f64) -> Recording {
        let orbit = reference::orbit(&self.table);
        let frequencies = truly.iter().map(|&n| {
            let motion = orbit.propagate(reference::instant(n));
            motion.map_or(centre, |motion| received(motion, self.observer, centre))
        });
        Recording {
            frequencies: frequencies.collect(),
            instants: truly.iter().map(|n| n + late).collect(),
        }
    }

    /// The call that hears the satellite so; its areas are a little longer than needed.
    pub fn call(
        self,
        random: &mut Random,
        recording: Recording,
        centre: f64,
        measured: i64,
    ) -> Call {
        let samples = recording.instants.len();
        Call {
            table: self.table,
            observer: self.observer,
            recording,
            centre,
            instant: measured,
            areas: [(); 2].map(|_| samples + random.below(4)),
            ..Call::default()
        }
    }
}

/// The instant of the closest approach about an instant, as the Rust finds it.
pub fn closest_to(table: &Table, observer: [f64; 3], instant: i64) -> i64 {
    let orbit = reference::orbit(table);
    let found = orbit.closest(observer, reference::instant(instant));
    reference::nanoseconds(found.expect("the Rust always finds one"))
}

/// The frequency that reaches the observer.
fn received((position, velocity): reference::Motion, observer: [f64; 3], centre: f64) -> f64 {
    let [x, y, z] = [0, 1, 2].map(|axis| position[axis] - observer[axis]);
    let range = (x * x + y * y + z * z).sqrt();
    let rate = (x * velocity[0] + y * velocity[1] + z * velocity[2]) / range;
    centre * (1.0 - rate / LIGHT)
}

/// So many instants about one, this far apart.
fn about(instant: i64, samples: usize, apart: i64) -> Vec<i64> {
    let half = samples as i64 / 2;
    let steps = (0..samples as i64).map(|k| k - half);
    steps.map(|k| instant + k * apart).collect()
}

/// A centre frequency.
pub(super) fn centre(random: &mut Random) -> f64 {
    random.pick(&[137e6, 400e6, 1.575e9, 2.2e9, 11.325e9])
}

/// How late a clock is: up to some seconds or a minute or two, to the microsecond.
fn lateness(random: &mut Random) -> i64 {
    let most = random.pick(&[4_000_000, 9_000_000, 100_000_000]);
    random.count(-most, most) * MICROSECOND
}

/// A recording without noise, a sample to the second: its clock offset in seconds is known.
pub fn known(random: &mut Random, size: Size, uneven: bool) -> (Call, f64) {
    let scene = Scene::draw(random, uneven, size.rows);
    known_in(random, scene, size.samples)
}

/// The same in this scene.
pub(super) fn known_in(random: &mut Random, scene: Scene, samples: usize) -> (Call, f64) {
    let (centre, late) = (centre(random), lateness(random));
    let mut recording = scene.heard(&about(scene.passing, samples, SECOND), late, centre);
    let offset = random.between(-5e3, 5e3);
    recording.frequencies.iter_mut().for_each(|f| *f += offset);
    let measured = scene.passing + late + random.count(-300, 300) * MILLISECOND;
    let call = scene.call(random, recording, centre, measured);
    (call, late as f64 / SECOND as f64)
}

/// A noisy recording, some samples to the second.
fn noisy(random: &mut Random, size: Size) -> Call {
    with_noise(random, size, false)
}

/// The same with an uneven table.
pub fn noisy_unevenly(random: &mut Random, size: Size) -> Call {
    with_noise(random, size, true)
}

/// A recording with noise in its frequencies and its instants.
fn with_noise(random: &mut Random, size: Size, uneven: bool) -> Call {
    let scene = Scene::draw(random, uneven, size.rows);
    let (centre, late) = (centre(random), lateness(random));
    let apart = random.pick(&[SECOND / 10, SECOND / 3, SECOND, 2 * SECOND]);
    let mut truly = about(scene.passing, size.samples, apart);
    truly
        .iter_mut()
        .for_each(|n| *n += random.count(-apart / 3, apart / 3));
    let mut recording = scene.heard(&truly, late, centre);
    let noise = random.pick(&[0.1, 10.0, 1e3]);
    recording
        .frequencies
        .iter_mut()
        .for_each(|f| *f += random.between(-noise, noise));
    let measured = scene.passing + late + random.count(-2000, 2000) * MILLISECOND;
    scene.call(random, recording, centre, measured)
}

/// The samples of a pass reversed, in any order, or drawn with repetition.
pub fn in_any_order(random: &mut Random, size: Size) -> Call {
    let mut call = noisy(random, size);
    let Recording {
        instants,
        frequencies,
    } = &call.recording;
    let pairs = instants.iter().copied().zip(frequencies.iter().copied());
    let mut pairs: Vec<(i64, f64)> = pairs.collect();
    match random.below(3) {
        0 => pairs.reverse(),
        1 => random.shuffle(&mut pairs),
        _ => pairs = pairs.iter().map(|_| random.pick(&pairs)).collect(),
    }
    (call.recording.instants, call.recording.frequencies) = pairs.into_iter().unzip();
    call
}

/// One sample: the first finite candidate wins with an RMSE of zero.
fn alone(random: &mut Random, size: Size) -> Call {
    noisy(random, Size { samples: 1, ..size })
}

/// A scene in which the rows about one are so close that no window with them has an inverse, and where these windows begin and end.
fn with_a_gap(random: &mut Random, rows: usize) -> (Scene, i64, i64) {
    let mut scene = Scene::draw(random, false, rows);
    let row = rows * 2 / 5 + random.below(rows / 5);
    let instants = &mut scene.table.instants;
    instants[row + 1] = instants[row] + 1;
    let (begin, end) = (instants[row - 4], instants[row + 5]);
    (scene, begin, end)
}

/// As many samples without a position as with one, one more or one less, at every shift.
fn half_lost(random: &mut Random, size: Size) -> Call {
    let about_half = size.samples / 2 + random.below(3);
    let lost = about_half.saturating_sub(1).min(size.samples);
    with_lost(random, size, lost)
}

/// So many of the samples have no position at any shift; each is in a second of its own.
pub fn with_lost(random: &mut Random, size: Size, lost: usize) -> Call {
    let (scene, begin, _) = with_a_gap(random, size.rows);
    let centre = centre(random);
    let away = |k: usize| (60 + k as i64) * SECOND;
    let mut truly: Vec<i64> = (0..lost).map(|k| begin + away(k)).collect();
    truly.extend((0..size.samples - lost).map(|k| begin - away(k)));
    random.shuffle(&mut truly);
    let recording = scene.heard(&truly, 0, centre);
    near_the_closest(random, scene, recording, centre)
}

/// Samples about the place where positions begin to be lost: at some shifts more than half of them have one.
pub fn lost_at_some_shifts(random: &mut Random, size: Size) -> Call {
    let (scene, begin, end) = with_a_gap(random, size.rows);
    let centre = centre(random);
    let edge = random.pick(&[begin, end]);
    let truly: Vec<i64> = (0..size.samples)
        .map(|_| edge + random.count(-20 * SECOND, 20 * SECOND))
        .collect();
    let recording = scene.heard(&truly, 0, centre);
    near_the_closest(random, scene, recording, centre)
}

/// The call whose measured instant is about the closest approach, so that the candidates lie about zero.
fn near_the_closest(random: &mut Random, scene: Scene, recording: Recording, centre: f64) -> Call {
    let measured =
        closest_to(&scene.table, scene.observer, scene.passing) + random.count(-2, 2) * SECOND;
    scene.call(random, recording, centre, measured)
}

/// The centre of the candidates is about the 5 s past which a second one is tried, and only the second reaches the clock offset.
fn about_two_centres(random: &mut Random, size: Size) -> Call {
    let side = random.pick(&[1, -1]);
    let centre = side * random.pick(&[4, 5, 5, 6, 6, 7, 60]) * SECOND;
    let late = -side * random.count(9_000, 15_000) * MILLISECOND;
    let samples = size.samples.clamp(4, 12);
    with_centre(random, Size { samples, ..size }, centre, late)
}

/// A recording without noise by a clock that is so late, about which the candidates have this centre, a whole number of seconds; at least four samples.
///
/// The samples lie evenly about the closest approach, but the one that would be there is where the approach is to be measured: between its neighbours the
/// frequency falls fastest, so that the pass measures it there too. The means have another one in the middle.
pub fn with_centre(random: &mut Random, size: Size, centre: i64, late: i64) -> Call {
    let uneven = random.one_in(2);
    let scene = Scene::draw(random, uneven, size.rows);
    let closest = closest_to(&scene.table, scene.observer, scene.passing);
    let frequency = self::centre(random);
    let away = centre - late;
    let apart = away.abs() + 3 * SECOND;
    let mut truly = about(closest + apart, size.samples, apart);
    truly[size.samples / 2 - 1] += away;
    let recording = scene.heard(&truly, late, frequency);
    scene.call(random, recording, frequency, closest + centre)
}

/// A satellite heard by a clock that is right, half a minute after the given one of 20 rows, when it is overhead; two rows of the table are a nanosecond apart,
/// the first of them given, so that no window with both has an inverse.
pub fn after_a_row(random: &mut Random, row: i64, close: usize) -> Call {
    let orbit = Orbit::low(random);
    let gap = 60 * SECOND;
    let table = Table::even(&orbit, PRESENT, gap, 20);
    let mut instants = table.instants.clone();
    instants[close + 1] = instants[close] + 1;
    let mut scene = Scene::overhead(&orbit, table, row * gap + gap / 2);
    let frequency = centre(random);
    let recording = scene.heard(&about(scene.passing, 5, 4 * SECOND), 0, frequency);
    scene.table = Table::of(&orbit, instants);
    let measured = scene.passing;
    scene.call(random, recording, frequency, measured)
}

/// A satellite heard eight times in the second, by a table of ten rows; the fall to the very last sample is the steepest, and less than 120 Hz/s.
pub fn eight_to_the_second(random: &mut Random, samples: usize) -> Call {
    let orbit = Orbit::low(random);
    let gap = 60 * SECOND;
    let table = Table::even(&orbit, PRESENT, gap, 10);
    let scene = Scene::overhead(&orbit, table, 9 * gap / 2);
    let frequency = 137e6;
    let truly = about(scene.passing, samples, SECOND / 8);
    let mut recording = scene.heard(&truly, 0, frequency);
    recording.frequencies[samples - 1] -= 20.0;
    let measured = scene.passing;
    scene.call(random, recording, frequency, measured)
}

/// A satellite that rests: the RMSE is all but the same at every shift.
pub fn at_rest(random: &mut Random, size: Size) -> Call {
    let mut scene = Scene::draw(random, false, size.rows);
    let place = tables::place(random);
    scene.table.positions = scene.table.instants.iter().flat_map(|_| place).collect();
    let centre = random.pick(&[1.0, 1e6, 1e9]);
    let truly = about(scene.passing, size.samples, SECOND);
    let frequencies = truly.iter().map(|_| f64::from(random.whole(-2, 2)) * 1e3);
    let recording = Recording {
        frequencies: frequencies.collect(),
        instants: truly,
    };
    let measured = scene.passing;
    scene.call(random, recording, centre, measured)
}

/// The satellite is where the observer is at the middle sample: without a shift its range is zero, which spoils that candidate.
pub fn through_the_observer(random: &mut Random, size: Size) -> Call {
    let uneven = random.one_in(2);
    let mut scene = Scene::draw(random, uneven, size.rows);
    let orbit = reference::orbit(&scene.table);
    let motion = orbit.propagate(reference::instant(scene.passing));
    scene.observer = motion.expect("the table has no refused window").0;
    let centre = centre(random);
    let recording = scene.heard(&about(scene.passing, size.samples, SECOND), 0, centre);
    let frequencies = recording.frequencies.iter();
    let recording = Recording {
        frequencies: frequencies
            .map(|f| if f.is_nan() { centre } else { *f })
            .collect(),
        ..recording
    };
    let measured = scene.passing;
    scene.call(random, recording, centre, measured)
}

/// Frequencies that never fall: there is no measured approach, and the middle mean stands for it.
pub fn rising(random: &mut Random, size: Size) -> Call {
    let mut call = noisy(random, size);
    call.recording.frequencies.sort_by(f64::total_cmp);
    call
}

/// Frequencies so large that means or squares overflow, all of them or a few.
fn overflowing(random: &mut Random, size: Size) -> Call {
    let mut call = noisy(random, size);
    let huge = recordings::huge(random, &call.recording.instants);
    let rare = random.pick(&[1, 1, 2, 10]);
    let scale = random.pick(&[1.0, 1e-154, 1e-160]);
    for (frequency, huge) in call.recording.frequencies.iter_mut().zip(huge) {
        if random.one_in(rare) {
            *frequency = huge * scale;
        }
    }
    call
}

/// The mean of one second is infinite, and spoils every candidate that has a position for it.
fn with_an_infinite_mean(random: &mut Random, size: Size) -> Call {
    let call = noisy(random, size);
    let instant = random.pick(&call.recording.instants);
    with_overflow_at(random, call, instant)
}

/// The same where that mean has no position at some shifts, and more than half of the others have one.
fn with_an_infinite_mean_lost(random: &mut Random, size: Size) -> Call {
    let call = with_lost(random, size, size.samples / 3);
    let last = call.recording.instants.iter().max();
    let instant = *last.expect("a recording has samples");
    with_overflow_at(random, call, instant)
}

/// The call with three more samples at an instant, whose sum overflows.
fn with_overflow_at(random: &mut Random, mut call: Call, instant: i64) -> Call {
    let huge = random.pick(&[f64::MAX, f64::MIN]);
    call.recording.instants.extend([instant; 3]);
    call.recording.frequencies.extend([huge; 3]);
    call.areas = call.areas.map(|length| length + 3);
    call
}

/// A table of nanoseconds: positions hold NaNs, or lie beyond all reason.
fn in_nanoseconds(random: &mut Random, size: Size) -> Call {
    let mut call = noisy(random, size);
    let start = call.table.instants[0];
    let rows = 0..call.table.instants.len() as i64;
    call.table.instants = rows.map(|k| start + k).collect();
    call
}

/// Samples and measured instant hours or years away from the table, or from each other.
fn far_from_the_table(random: &mut Random, size: Size) -> Call {
    let mut call = noisy(random, size);
    let far = random.count(0, PRESENT) >> random.below(25);
    let together = random.one_in(2);
    call.recording.instants.iter_mut().for_each(|n| *n -= far);
    if together {
        call.instant -= far;
    }
    call
}

/// Any table, any observer, and any samples with finite frequencies, near the table or anywhere.
fn any_table(random: &mut Random, size: Size) -> Call {
    let kinds: [fn(&mut Random) -> Call; 2] = [closest::any_table, closest::overflowing];
    let call = random.pick(&kinds)(random);
    let instants = if random.one_in(4) {
        random.pick(&INSTANTS)(random, size.samples)
    } else {
        let near = (0..size.samples).map(|_| tables::asked(random, &call.table)[0]);
        near.collect()
    };
    let frequencies = random.pick(&FREQUENCIES)(random, &instants);
    let finite = frequencies
        .iter()
        .map(|&f| if f.is_finite() { f } else { 1e6 });
    Call {
        recording: Recording {
            frequencies: finite.collect(),
            instants,
        },
        centre: centre(random),
        areas: [size.samples + random.below(4), size.samples],
        ..call
    }
}
