//! Shapes, and what can be measured of them.
use crate::units::Meters;

pub trait Area {
    fn area(&self) -> f64;
}

pub enum Shape {
    Square(Meters),
    Circle { radius: Meters },
}

pub(crate) fn unit() -> Shape {
    Shape::Square(super::units::ONE)
}
