use super::Fault;
use crate::reference::{Address, Metric, SequenceNumber};

/// The number of a point or frame, counted from 0 in the order in which they are added or emitted.
pub type Index = usize;

/// A command with its operands.
#[derive(Clone, Copy, Debug, PartialEq, Eq)]
pub enum Command {
    Point {
        address: Address,
        number: SequenceNumber,
    },
    Advance {
        milliseconds: u32,
    },
    Link {
        ends: [Index; 2],
        metric: Metric,
    },
    Ask {
        point: Index,
        flags: u8,
        destination: Address,
        lifetime: u32,
    },
    Announce {
        point: Index,
        lifetime: u32,
    },
    Deliver {
        frame: Index,
        point: Index,
    },
    Break {
        point: Index,
        neighbour: Index,
    },
    Walk {
        start: Index,
        destination: Index,
    },
}

impl Command {
    /// Returns the command's octet, with which its line begins.
    pub fn octet(&self) -> u8 {
        match self {
            Command::Point { .. } => 1,
            Command::Advance { .. } => 2,
            Command::Link { .. } => 3,
            Command::Ask { .. } => 4,
            Command::Announce { .. } => 5,
            Command::Deliver { .. } => 6,
            Command::Break { .. } => 7,
            Command::Walk { .. } => 8,
        }
    }

    /// Takes the next command with all its operands from the input. The bench judges whether the
    /// points and frames that it names are there.
    pub fn read(input: &mut &[u8]) -> Result<Command, Fault> {
        let mut operands = Operands { rest: input };
        let command = match operands.u8()? {
            1 => Command::Point {
                address: operands.address()?,
                number: SequenceNumber(operands.u32()?),
            },
            2 => Command::Advance {
                milliseconds: operands.u32()?,
            },
            3 => Command::Link {
                ends: [operands.point()?, operands.point()?],
                metric: Metric(operands.u32()?),
            },
            4 => Command::Ask {
                point: operands.point()?,
                flags: operands.u8()?,
                destination: operands.address()?,
                lifetime: operands.u32()?,
            },
            5 => Command::Announce {
                point: operands.point()?,
                lifetime: operands.u32()?,
            },
            6 => Command::Deliver {
                frame: operands.frame()?,
                point: operands.point()?,
            },
            7 => Command::Break {
                point: operands.point()?,
                neighbour: operands.point()?,
            },
            8 => Command::Walk {
                start: operands.point()?,
                destination: operands.point()?,
            },
            _ => return Err(Fault::UnknownCommand),
        };
        *input = operands.rest;
        Ok(command)
    }
}

/// The rest of the input, taken field by field.
struct Operands<'a> {
    rest: &'a [u8],
}

impl Operands<'_> {
    fn octets<const N: usize>(&mut self) -> Result<[u8; N], Fault> {
        let (octets, rest) = self.rest.split_first_chunk().ok_or(Fault::CutOperand)?;
        self.rest = rest;
        Ok(*octets)
    }

    fn u8(&mut self) -> Result<u8, Fault> {
        self.octets().map(u8::from_le_bytes)
    }

    fn u32(&mut self) -> Result<u32, Fault> {
        self.octets().map(u32::from_le_bytes)
    }

    fn address(&mut self) -> Result<Address, Fault> {
        self.octets().map(Address)
    }

    fn point(&mut self) -> Result<Index, Fault> {
        self.u8().map(usize::from)
    }

    fn frame(&mut self) -> Result<Index, Fault> {
        self.octets().map(u16::from_le_bytes).map(usize::from)
    }
}
