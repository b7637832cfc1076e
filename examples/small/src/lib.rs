//! Two modules, one of which shows the other's items.
pub mod shapes;
mod units;

pub use shapes::{Area, Shape};
pub use units::*;

use shapes::Volume;
