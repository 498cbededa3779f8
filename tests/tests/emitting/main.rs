//! Ask, announce, root request and break, worked out by hand from docs/PROTOCOL.md: the octets that
//! they leave in table and output, and the order of their refusals.

mod asking;
mod breaking;
mod clocks;
mod items;
mod originating;
mod reading_back;
mod refusals;
mod splitting;
mod stand_ins;
