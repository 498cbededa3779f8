//! Compares the bench program with the separately written one: whole outputs for random streams of
//! commands, and streams worked out by hand from docs/PROTOCOL.md, 'Bench'. The program under test
//! is `../crates/bench/out/bench`, or the one that HWMP_BENCH names.

mod agreement;
mod cases;
mod commands;
mod dialogue;
mod endings;
mod faults;
mod lines;
mod lives;
mod long;
mod program;
mod rings;
mod script;
mod stream;
mod worked;
