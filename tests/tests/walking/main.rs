//! The walk: random calls on random tables side by side, and cases worked out by hand from
//! docs/PROTOCOL.md.

mod agreement;
mod cases;
mod mesh;
mod refusals;
