//! Elements: how the library reads them, writes them as frames and judges their lists. The tests
//! compare it with cases worked out by hand from docs/PROTOCOL.md and with the separately written
//! implementation.

mod agreement;
mod asking;
mod clauses;
mod lengths;
mod lists;
mod worked;
