//! The means by the second.

use crate::driver::{compare as compare_call, compare_lengths, compare_paper, compare_refusals};
use crate::ours::means as ours;
use crate::tally::{Tally, Total};
use crate::timing::{Row, row};
use compare::calls::{Call, Entry};
use compare::checks::SAMPLES;
use compare::inputs::random::Random;
use compare::inputs::recordings::{self, FREQUENCIES, INSTANTS, Recording};
use compare::inputs::tables::{PRESENT, SECOND};
use compare::reference;
use std::hint::black_box;

/// How many recordings of each sort of instants with each sort of frequencies.
const RECORDINGS: usize = 300;

/// Compares the entry.
pub fn compare(total: &mut Total) {
    compare_means(total);
    compare_paper(total, Entry::DownsampleData, ours::means);
    compare_lengths(total, Entry::DownsampleData, ours::means, 1);
    compare_refusals(total, Entry::DownsampleData, ours::means);
}

/// The means of every sort of recording, in areas that are often longer than needed.
fn compare_means(total: &mut Total) {
    let mut tally = Tally::new("downsample_data");
    let mut random = Random::new(50);
    for instants in INSTANTS {
        for frequencies in FREQUENCIES {
            for _ in 0..RECORDINGS {
                let recording = recordings::draw(&mut random, instants, frequencies);
                let samples = recording.instants.len();
                let call = Call {
                    recording,
                    areas: [(); 2].map(|_| samples + random.below(6)),
                    ..Call::default()
                };
                let expected = compare_call(&mut tally, Entry::DownsampleData, ours::means, &call);
                if expected.areas.iter().any(|word| word.is_nan()) {
                    tally.note("with a NaN among the means");
                }
                if (expected.results[0].bits() as usize) < samples {
                    tally.note("with fewer means than samples");
                }
            }
        }
    }
    tally.finish(total);
}

/// Times the means of samples ten to the second: as many as there may be in order, and several numbers of them in any order.
pub fn time() -> Vec<Row> {
    let mut random = Random::new(51);
    let in_order = instants_in_order(SAMPLES);
    let mut rows = vec![time_means(&mut random, "in order", in_order)];
    for count in [SAMPLES, 65, 16] {
        let instants = shuffled(&mut random, count);
        rows.push(time_means(&mut random, "shuffled", instants));
    }
    rows
}

/// Instants a tenth of a second apart.
fn instants_in_order(count: usize) -> Vec<i64> {
    (0..count as i64)
        .map(|k| PRESENT + k * SECOND / 10)
        .collect()
}

/// The same in any order.
fn shuffled(random: &mut Random, count: usize) -> Vec<i64> {
    let mut instants = instants_in_order(count);
    random.shuffle(&mut instants);
    instants
}

/// The means of samples at these instants, which are in this order.
fn time_means(random: &mut Random, order: &str, instants: Vec<i64>) -> Row {
    let name = format!("downsample_data, {} {order}", instants.len());
    let recording = Recording {
        frequencies: recordings::falling(random, &instants),
        instants,
    };
    let samples = reference::samples(&recording);
    let mut instants = [0; SAMPLES];
    let mut frequencies = [0.0; SAMPLES];
    let mut count = 0;
    row(
        name,
        &[()],
        |()| {
            let areas = black_box((&mut instants, &mut frequencies));
            ours::write_means(&recording, areas.0, areas.1, black_box(&mut count))
        },
        |()| reference::means(&samples),
    )
}
