//! Circular orbits over a turning earth, worked out with plain arithmetic: the same on every machine.

use super::random::Random;
use std::f64::consts::TAU;

/// The earth's radius in metres.
pub const EARTH: f64 = 6_371_000.0;

/// The earth's gravity times its mass, in cubic metres for each second squared.
const GRAVITY: f64 = 3.986e14;

/// One turn of the earth, in seconds.
const DAY: f64 = 86_164.0;

/// A circular orbit; its angles are in turns.
#[derive(Clone, Copy)]
pub struct Orbit {
    radius: f64,
    tilt: f64,
    node: f64,
    phase: f64,
}

impl Orbit {
    /// The orbit of a low, a medium or a high satellite.
    pub fn draw(random: &mut Random) -> Self {
        let radius = match random.below(8) {
            0..5 => random.between(6.7e6, 7.6e6),
            5 | 6 => random.between(2.0e7, 3.0e7),
            _ => random.between(4.1e7, 4.3e7),
        };
        Orbit::of_radius(random, radius)
    }

    /// The orbit of a low satellite.
    pub fn low(random: &mut Random) -> Self {
        let radius = random.between(6.8e6, 7.2e6);
        Orbit::of_radius(random, radius)
    }

    /// Any orbit of this radius.
    fn of_radius(random: &mut Random, radius: f64) -> Self {
        Orbit {
            radius,
            tilt: random.between(0.05, 0.45),
            node: random.between(0.0, 1.0),
            phase: random.between(0.0, 1.0),
        }
    }

    /// The position after so many seconds, in metres, turning with the earth.
    pub fn position(&self, seconds: f64) -> [f64; 3] {
        let period = TAU * (self.radius * self.radius * self.radius / GRAVITY).sqrt();
        let (along, across) = on_circle(self.phase + seconds / period);
        let (level, upright) = on_circle(self.tilt);
        let (east, north) = on_circle(self.node - seconds / DAY);
        let place = [
            along * east - across * level * north,
            along * north + across * level * east,
            across * upright,
        ];
        place.map(|x| x * self.radius)
    }

    /// An observer on the ground, up to some thousand kilometres from the place below the satellite at that time.
    pub fn observer(&self, random: &mut Random, seconds: f64) -> [f64; 3] {
        let aside = random.between(0.0, 0.3);
        let place = self.position(seconds).map(|x| {
            let towards = x / self.radius;
            towards + random.between(-aside, aside)
        });
        on_the_ground(place)
    }
}

/// The place on the ground in a direction.
pub fn on_the_ground([x, y, z]: [f64; 3]) -> [f64; 3] {
    let length = (x * x + y * y + z * z).sqrt();
    [x, y, z].map(|component| component / length * EARTH)
}

/// Cosine and sine of an angle in turns, by their series.
fn on_circle(turns: f64) -> (f64, f64) {
    let angle = (turns - turns.round()) * TAU;
    let (mut cosine, mut sine) = (0.0, 0.0);
    let mut term = 1.0;
    for k in 0..40 {
        match k % 4 {
            0 => cosine += term,
            1 => sine += term,
            2 => cosine -= term,
            _ => sine -= term,
        }
        term *= angle / f64::from(k + 1);
    }
    (cosine, sine)
}
