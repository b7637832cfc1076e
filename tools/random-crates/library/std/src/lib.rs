//! Of `std` what random crates name, at its paths.
#![no_std]
extern crate alloc as alloc_crate;
pub use alloc_crate::vec;
pub use core::{clone, fmt, option};
#[macro_use]
mod macros {
    #[macro_export]
    macro_rules! println {
        () => {};
    }
}
pub mod prelude {
    pub mod v1 {
        pub use crate::vec::Vec;
        pub use core::prelude::v1::*;
    }
    pub mod rust_2015 {
        pub use super::v1::*;
    }
    pub mod rust_2018 {
        pub use super::v1::*;
    }
    pub mod rust_2021 {
        pub use super::v1::*;
    }
    pub mod rust_2024 {
        pub use super::v1::*;
    }
}
