//! Compares the library with the separately written implementation: random calls on random tables,
//! octet by octet.

mod emitting;
mod lives;
mod lookups;
