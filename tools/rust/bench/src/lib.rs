//! Times the library's doors beside the Rust source's functions, on the same sets and with the same bits.

pub mod case;
pub mod measure;
pub mod plot;
pub mod report;
pub mod rust_side;
