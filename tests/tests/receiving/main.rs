//! Receiving: random meshes whose points send to each other, single calls on random and damaged
//! octets, and cases worked out by hand from docs/PROTOCOL.md.

mod addresses;
mod cases;
mod damaged;
mod errors;
mod free_rows;
mod kinds;
mod learning;
mod marks;
mod mesh;
mod refusals;
mod replies;
mod requests;
mod runs;
mod script;
mod short_loops;
mod stand_ins;
mod three_points;
mod window;
