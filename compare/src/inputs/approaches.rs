//! Recordings by the measured approach of their means: of too few means for a slope, without a fall, and with slopes that are infinite or no numbers.

use super::passes::{self, Size};
use super::random::Random;
use super::recordings::Recording;
use super::tables::SECOND;
use crate::calls::Call;
use crate::reference;

/// A kind of recording, whether its means have slopes, and whether none of these is below zero.
pub struct Kind {
    pub name: &'static str,
    pub draw: passes::Kind,
    pub sloped: bool,
    pub fallback: bool,
}

/// Each kind; the size that it is drawn with has at least twelve samples.
pub const KINDS: [Kind; 9] = [
    Kind {
        name: "one mean",
        draw: |random, size| of_few_means(random, size, 1),
        sloped: false,
        fallback: true,
    },
    Kind {
        name: "two means",
        draw: |random, size| of_few_means(random, size, 2),
        sloped: false,
        fallback: true,
    },
    Kind {
        name: "rising",
        draw: rising,
        sloped: true,
        fallback: true,
    },
    Kind {
        name: "level",
        draw: level,
        sloped: true,
        fallback: true,
    },
    Kind {
        name: "a fall alone",
        draw: with_one_fall,
        sloped: true,
        fallback: false,
    },
    Kind {
        name: "a fall from infinity",
        draw: |random, size| {
            with_infinite_means(random, size, true, &[(0, f64::MAX), (3, f64::MIN)])
        },
        sloped: true,
        fallback: false,
    },
    Kind {
        name: "a fall to minus infinity, and no number",
        draw: |random, size| {
            with_infinite_means(random, size, true, &[(1, f64::MIN), (3, f64::MIN)])
        },
        sloped: true,
        fallback: false,
    },
    Kind {
        name: "a finite fall, infinity and no number",
        draw: |random, size| {
            with_infinite_means(random, size, false, &[(1, f64::MAX), (3, f64::MAX)])
        },
        sloped: true,
        fallback: false,
    },
    Kind {
        name: "no fall, infinity and no number",
        draw: |random, size| {
            with_infinite_means(random, size, true, &[(1, f64::MAX), (3, f64::MAX)])
        },
        sloped: true,
        fallback: true,
    },
];

/// How many means have no position at the shifts within 60 s, so that infinite ones among them spoil none of these candidates; they are the last.
const LOST: usize = 4;

/// Samples of a pass, as many as there are, in this many seconds.
fn of_few_means(random: &mut Random, size: Size, means: i64) -> Call {
    let mut call = passes::noisy_unevenly(random, size);
    let first = call.recording.instants[0].div_euclid(SECOND);
    let apart = random.count(1, 90);
    let instants = call.recording.instants.iter_mut();
    for (k, instant) in instants.enumerate() {
        let second = first + k as i64 % means * apart;
        *instant = second * SECOND + random.count(0, SECOND - 1);
    }
    call
}

/// Frequencies that rise by the second, a sample in each.
fn rising(random: &mut Random, size: Size) -> Call {
    let mut call = passes::known(random, size, false).0;
    call.recording.frequencies.sort_by(f64::total_cmp);
    call
}

/// The same frequency in every second, a sample in each.
fn level(random: &mut Random, size: Size) -> Call {
    let mut call = passes::known(random, size, true).0;
    call.recording.frequencies.fill(call.centre);
    call
}

/// Rising frequencies, one of which is far above the next but one: the only fall.
fn with_one_fall(random: &mut Random, size: Size) -> Call {
    let mut call = rising(random, size);
    let frequencies = &mut call.recording.frequencies;
    let k = random.below(frequencies.len() - 2);
    frequencies[k] = frequencies[k + 2] + 1e6;
    call
}

/// A sample to the second, rising or falling by the second; of the last means, which have no position, those of these numbers are infinite, as is the sum of
/// three such frequencies.
fn with_infinite_means(
    random: &mut Random,
    size: Size,
    rising: bool,
    infinite: &[(usize, f64)],
) -> Call {
    let mut call = passes::with_lost(random, size, LOST);
    let Recording {
        instants,
        frequencies,
    } = &mut call.recording;
    let mut seconds = instants.clone();
    seconds.sort();
    frequencies.sort_by(f64::total_cmp);
    if !rising {
        frequencies.reverse();
    }
    *instants = seconds.clone();
    for &(number, huge) in infinite {
        let instant = seconds[size.samples - LOST + number];
        instants.extend([instant; 3]);
        frequencies.extend([huge; 3]);
    }
    let more = 3 * infinite.len();
    call.areas = call.areas.map(|length| length + more);
    call
}

/// The slopes about the means of a call where the seconds between their neighbours are above zero.
pub fn slopes(call: &Call) -> Vec<f64> {
    let means = reference::means(&reference::samples(&call.recording));
    let about = means.windows(3).map(|three| {
        let gap = (three[2].0 - three[0].0).num_milliseconds() as f64 / 1000.0;
        (gap, (three[2].1 - three[0].1) / gap)
    });
    about
        .filter(|(gap, _)| *gap > 0.0)
        .map(|(_, slope)| slope)
        .collect()
}
