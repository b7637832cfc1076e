//! Units of length.
pub struct Meters(pub f64);

pub const ONE: Meters = Meters(1.0);

pub(super) const INCH: Meters = Meters(0.0254);
