use std::fmt::{self, Display};

/// What the bench prints: a line for each command, or the line that ends the run.
#[derive(Clone, Copy, Debug, PartialEq, Eq)]
pub enum Line {
    Done(Done),
    Ended { offset: usize, fault: Fault },
}

/// The result of a command.
#[derive(Clone, Copy, Debug, PartialEq, Eq)]
pub struct Done {
    /// The command's octet.
    pub command: u8,
    /// The answer or refusal of its call.
    pub answer: u32,
    /// The frames emitted, or the hops of a walk.
    pub third: usize,
}

/// Why a run ends. The line printed does not show which fault it was.
#[derive(Clone, Copy, Debug, PartialEq, Eq)]
pub enum Fault {
    UnknownCommand,
    CutOperand,
    BadIndex,
    SeventeenthPoint,
    FrameBeyond128,
    Clock,
}

impl Display for Line {
    fn fmt(&self, to: &mut fmt::Formatter) -> fmt::Result {
        match self {
            Line::Done(done) => writeln!(to, "{} {} {}", done.command, done.answer, done.third),
            Line::Ended { offset, .. } => writeln!(to, "E {offset}"),
        }
    }
}
