//! One call of an entry: what it takes, in the order in which it is handed over.

use crate::inputs::recordings::Recording;
use crate::inputs::tables::Table;
use crate::reference::TOLERANCE;
use crate::words::{hex, hex_length, hex_whole};

/// The entries that take tables, samples or instants, and the slant range.
#[derive(Clone, Copy, PartialEq)]
pub enum Entry {
    GetChebyshevModel,
    Evaluate,
    PropagateEcef,
    FindPcaTime,
    DownsampleData,
    EstimateMeasuredPcaTime,
    SteepestSlope,
    EstimateSlantRange,
    FitSatellite,
    Pass,
}

/// What an entry can take.
#[derive(Clone, Copy, PartialEq)]
pub enum Part {
    Table,
    Samples,
    Model,
    Observer,
    Centre,
    Slope,
    Instant,
    Tolerance,
    Areas,
}

impl Entry {
    /// The name in the list of cases.
    pub fn name(self) -> &'static str {
        match self {
            Entry::GetChebyshevModel => "get_chebyshev_model",
            Entry::Evaluate => "evaluate",
            Entry::PropagateEcef => "propagate_ecef",
            Entry::FindPcaTime => "find_pca_time",
            Entry::DownsampleData => "downsample_data",
            Entry::EstimateMeasuredPcaTime => "estimate_measured_pca_time",
            Entry::SteepestSlope => "steepest_slope",
            Entry::EstimateSlantRange => "estimate_slant_range",
            Entry::FitSatellite => "fit_satellite",
            Entry::Pass => "pass",
        }
    }

    /// What it takes, in order.
    pub fn parts(self) -> &'static [Part] {
        use Part::*;
        match self {
            Entry::GetChebyshevModel | Entry::PropagateEcef => &[Table, Instant, Tolerance],
            Entry::Evaluate => &[Model, Instant],
            Entry::FindPcaTime => &[Table, Observer, Instant, Tolerance],
            Entry::DownsampleData => &[Samples, Areas],
            Entry::EstimateMeasuredPcaTime | Entry::SteepestSlope => &[Samples],
            Entry::EstimateSlantRange => &[Centre, Slope],
            Entry::FitSatellite => &[Table, Samples, Observer, Centre, Instant, Tolerance],
            Entry::Pass => &[Table, Samples, Observer, Centre, Tolerance, Areas],
        }
    }

    /// Whether it takes the part.
    pub fn takes(self, part: Part) -> bool {
        self.parts().contains(&part)
    }

    /// Whether it makes the check of this number of the part; only the fit and pass entries make check 7.
    pub fn makes(self, number: u8, part: Part) -> bool {
        let fits = matches!(self, Entry::FitSatellite | Entry::Pass);
        self.takes(part) && (number != 7 || fits)
    }
}

/// All that any entry takes; an entry looks at its own parts alone.
#[derive(Clone)]
pub struct Call {
    pub table: Table,
    pub recording: Recording,
    /// Two end times and three rows of ten coefficients.
    pub model: [f64; 32],
    pub observer: [f64; 3],
    /// The centre frequency.
    pub centre: f64,
    pub slope: f64,
    /// The instant asked for, or the measured approach.
    pub instant: i64,
    /// By how many seconds a gap of an even window may be off.
    pub tolerance: f64,
    /// The lengths of the areas for the means' instants and frequencies.
    pub areas: [usize; 2],
}

impl Default for Call {
    fn default() -> Self {
        Call {
            table: Table::default(),
            recording: Recording::default(),
            model: [0.0; 32],
            observer: [0.0; 3],
            centre: 0.0,
            slope: 0.0,
            instant: 0,
            tolerance: TOLERANCE,
            areas: [0; 2],
        }
    }
}

impl Call {
    /// The same call at another tolerance.
    pub fn at(&self, tolerance: f64) -> Call {
        Call {
            tolerance,
            ..self.clone()
        }
    }

    /// The entry's arguments, a word of bits each; a slice has its length before it.
    pub fn arguments(&self, entry: Entry) -> Vec<String> {
        let parts = entry.parts().iter();
        parts.flat_map(|&part| self.words_of(part)).collect()
    }

    /// The words of one part.
    fn words_of(&self, part: Part) -> Vec<String> {
        match part {
            Part::Table => two_slices(&self.table.instants, &self.table.positions),
            Part::Samples => two_slices(&self.recording.instants, &self.recording.frequencies),
            Part::Model => self.model.iter().map(|&x| hex(x)).collect(),
            Part::Observer => self.observer.iter().map(|&x| hex(x)).collect(),
            Part::Centre => vec![hex(self.centre)],
            Part::Slope => vec![hex(self.slope)],
            Part::Instant => vec![hex_whole(self.instant)],
            Part::Tolerance => vec![hex(self.tolerance)],
            Part::Areas => self
                .areas
                .iter()
                .map(|&length| hex_length(length))
                .collect(),
        }
    }
}

/// The words of a slice of instants and of one of doubles.
fn two_slices(instants: &[i64], doubles: &[f64]) -> Vec<String> {
    let mut words = vec![hex_length(instants.len())];
    words.extend(instants.iter().map(|&n| hex_whole(n)));
    words.push(hex_length(doubles.len()));
    words.extend(doubles.iter().map(|&x| hex(x)));
    words
}
