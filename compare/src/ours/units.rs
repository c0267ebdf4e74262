//! The units as the C interface takes them: structs with one field.

/// A length.
#[repr(C)]
pub struct Metres(pub f64);

/// A span of time.
#[repr(C)]
pub struct Seconds(pub f64);

/// A frequency.
#[repr(C)]
pub struct Hertz(pub f64);

/// An instant.
#[repr(C)]
pub struct Nanoseconds(pub i64);

/// Leap seconds.
#[repr(C)]
pub struct LeapSeconds(pub i16);
