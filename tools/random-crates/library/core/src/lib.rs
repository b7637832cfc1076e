//! Of `core` what random crates name, at its paths: what is compared with rustc's own library is that alone.
#![no_core]
pub mod clone {
    pub trait Clone {}
    #[rustc_builtin_macro]
    pub macro Clone($item:item) {}
}
pub mod fmt {
    pub struct Error;
}
pub mod option {
    pub enum Option<T> {
        None,
        Some(T),
    }
}
pub mod prelude {
    pub mod v1 {
        pub use crate::clone::Clone;
        pub use crate::option::Option::{self, None, Some};
    }
    pub mod rust_2015 {
        pub use super::v1::*;
    }
    pub mod rust_2018 {
        pub use super::v1::*;
    }
    pub mod rust_2021 {
        pub use super::v1::*;
    }
    pub mod rust_2024 {
        pub use super::v1::*;
    }
}
