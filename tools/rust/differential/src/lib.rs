//! Compares the proved library's five doors, and the program `key`, with the oracle on random sets.

pub mod call;
pub mod cartons;
pub mod compare;
pub mod damage;
pub mod doors;
pub mod generate;
#[cfg(feature = "faults")]
pub mod hunt;
pub mod key;
#[cfg(feature = "library")]
pub mod library;
pub mod numbers;
pub mod phases;
pub mod progress;
pub mod random;
pub mod replay;
pub mod tables;
pub mod tally;
pub mod threads;
pub mod weights;
