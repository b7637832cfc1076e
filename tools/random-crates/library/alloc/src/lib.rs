//! Of `alloc` what random crates name, at its paths.
#![no_std]
#[macro_use]
mod macros {
    #[macro_export]
    macro_rules! vec {
        () => {};
    }
}
pub mod vec {
    pub struct Vec {}
}
