//! What a floor costs.
pub use shapes::Area;

#[cfg(feature = "metres")]
pub use metric::Metre;

#[cfg(has_table)]
pub mod table {
    include!(concat!(env!("OUT_DIR"), "/table.rs"));
}

#[cfg(test)]
mod tests {
    use super::Area;
}
