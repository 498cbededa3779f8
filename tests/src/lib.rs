//! The parts that the tests and benchmarks share:
//!
//! - the library behind safe functions, and a separately written implementation to compare it with;
//! - random tables and elements;
//! - points that send to each other, and thirty simulated days of them;
//! - stand-ins for the library, each with one wrong rule that the tests must notice;
//! - checks for calls that were worked out by hand.

pub mod answers;
pub mod comparing;
pub mod elements;
pub mod fence;
pub mod implementation;
pub mod library;
pub mod mesh;
pub mod probe;
pub mod random;
pub mod received;
pub mod reference;
pub mod stand_ins;
pub mod tables;
pub mod thirty_days;
pub mod worked;
