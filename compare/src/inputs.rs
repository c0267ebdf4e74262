//! The inputs that both sides are given: a random stream, and for each kind of argument its edges.

pub mod approaches;
pub mod boards;
pub mod closest;
pub mod doubles;
pub mod faults;
pub mod integers;
pub mod matrices;
pub mod orbits;
pub mod outside;
pub mod paper;
pub mod passes;
pub mod polynomials;
pub mod random;
pub mod recordings;
pub mod sp3;
pub mod tables;
pub mod tolerances;
