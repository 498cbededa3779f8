//! Makes each call on the library and on the reference, with equal operands on equal tables, and
//! compares the results octet by octet.

mod lending;
mod pair;
mod point;
mod tally;
mod walks;

pub use crate::reference::cut_frames as frames;
pub use point::{Point, Run};
pub use tally::{Listed, Tally};
pub use walks::{Walk, Walks};
