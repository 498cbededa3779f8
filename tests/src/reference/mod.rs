//! The protocol in plain Rust, written separately from the library, from the paper that
//! docs/PROTOCOL.md restates. The tests compare the library with it, and the benchmarks use it as
//! the plain Rust version.

mod address;
pub mod bench;
pub mod breaks;
pub mod calls;
mod checks;
mod counters;
pub mod element;
mod frames;
mod items;
mod octets;
pub mod originate;
pub mod receive;
mod refusal;
pub mod table;
pub mod walk;

pub use address::Address;
pub use counters::{HopCount, Metric, RequestId, SequenceNumber};
pub use frames::{Emitted, LEAST_OUTPUT, cut_frames};
pub use refusal::{Refusal, answer};
