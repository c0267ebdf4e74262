// What is asked of a text about a table: this file stands behind each of the two texts, in the same module.

/// A table as the Rust takes it.
pub fn orbit(table: &Table) -> OrbitModel {
    let rows = table.instants.iter().zip(table.positions.as_chunks().0);
    let coordinates = rows.map(|(&n, &position)| Sp3Coordinate {
        time: instant(n),
        position,
        velocity: None,
        clock_offset: 0.0,
    });
    OrbitModel::Sp3 {
        orbit: SatelliteOrbit {
            sat_name: String::new(),
            coordinates: coordinates.collect(),
        },
    }
}

/// The 32 numbers of the Rust's model.
pub fn numbers(model: &ChebyshevOrbit) -> [f64; 32] {
    let mut numbers = [model.t0; 32];
    numbers[1] = model.t9;
    numbers[2..].copy_from_slice([model.cx, model.cy, model.cz].as_flattened());
    numbers
}

/// The model of the window about an instant, or nothing where it has no inverse.
#[inline(never)]
pub fn model(orbit: &OrbitModel, instant: DateTime<Utc>) -> Option<ChebyshevOrbit> {
    let OrbitModel::Sp3 { orbit } = orbit;
    orbit.get_chebyshev_model(instant)
}

impl TabulatedOrbit for OrbitModel {
    fn model(&self, instant: DateTime<Utc>) -> Option<[f64; 32]> {
        model(self, instant).map(|model| numbers(&model))
    }

    #[inline(never)]
    fn propagate(&self, instant: DateTime<Utc>) -> Option<Motion> {
        self.propagate_ecef(instant)
    }

    #[inline(never)]
    fn closest(&self, observer: [f64; 3], instant: DateTime<Utc>) -> Option<DateTime<Utc>> {
        find_pca_time(self, observer, instant)
    }

    #[inline(never)]
    fn fit(
        &self,
        samples: &Samples,
        observer: [f64; 3],
        centre: f64,
        measured: DateTime<Utc>,
    ) -> Option<Report> {
        fit_satellite(self, samples, observer, centre, measured)
    }
}
