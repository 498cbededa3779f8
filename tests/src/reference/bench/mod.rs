//! The bench program of docs/PROTOCOL.md, 'Bench', as a function from everything it reads to
//! everything it prints.

mod command;
mod line;

use super::table::{CLOCK_MAX, HEAD_OCTETS, Head, ROW_OCTETS};
use super::walk::{MOST_POINTS, walk};
use super::{
    Address, Emitted, LEAST_OUTPUT, Metric, Refusal, SequenceNumber, answer, breaks, calls,
    cut_frames, originate, receive,
};
use crate::answers::ACCEPTED;

pub use command::{Command, Index};
pub use line::{Done, Fault, Line};

const ROWS: usize = 16;
const TABLE_OCTETS: usize = HEAD_OCTETS + ROWS * ROW_OCTETS;
pub const MOST_FRAMES: usize = 128;

/// Returns the whole output.
pub fn output(input: &[u8]) -> String {
    run(input).iter().map(Line::to_string).collect()
}

/// Returns the lines of the whole output.
pub fn run(input: &[u8]) -> Vec<Line> {
    let mut bench = Bench::default();
    let mut lines = Vec::new();
    let mut rest = input;
    while !rest.is_empty() {
        let offset = input.len() - rest.len();
        let outcome = Command::read(&mut rest).and_then(|command| bench.obey(command));
        lines.push(match outcome {
            Ok(done) => Line::Done(done),
            Err(fault) => Line::Ended { offset, fault },
        });
        if outcome.is_err() {
            break;
        }
    }
    lines
}

/// An element that a point sent. The receiver address of its frame does not matter.
#[derive(Clone)]
struct Sent {
    sender: Index,
    element: Vec<u8>,
}

/// The points, the frames they sent, and the links between them.
#[derive(Default)]
pub struct Bench {
    clock: u64,
    tables: Vec<[u8; TABLE_OCTETS]>,
    /// 0 where there is no link.
    links: [[Metric; MOST_POINTS]; MOST_POINTS],
    sent: Vec<Sent>,
}

/// What a line says after the command.
struct Answered {
    answer: u32,
    third: usize,
}

const DONE: Answered = Answered {
    answer: ACCEPTED,
    third: 0,
};

impl Bench {
    pub fn points(&self) -> usize {
        self.tables.len()
    }

    pub fn frames(&self) -> usize {
        self.sent.len()
    }

    /// Returns the point that sent a frame.
    pub fn sender(&self, frame: Index) -> Index {
        self.sent[frame].sender
    }

    /// Obeys one command. After a fault the bench must not be used any more.
    pub fn obey(&mut self, command: Command) -> Result<Done, Fault> {
        let answered = match command {
            Command::Point { address, number } => self.add_point(address, number),
            Command::Advance { milliseconds } => self.advance(milliseconds),
            Command::Link { ends, metric } => self.link(ends, metric),
            Command::Ask {
                point,
                flags,
                destination,
                lifetime,
            } => {
                let item = [&[flags][..], &destination.0].concat();
                self.call(point, |table, output| {
                    originate::ask(table, output, lifetime, &item)
                })
            }
            Command::Announce { point, lifetime } => self.call(point, |table, output| {
                originate::announce(table, output, 0, lifetime)
            }),
            Command::Deliver { frame, point } => self.deliver(frame, point),
            Command::Break { point, neighbour } => self.report_break(point, neighbour),
            Command::Walk { start, destination } => self.walk(start, destination),
        };
        let Answered { answer, third } = answered?;
        Ok(Done {
            command: command.octet(),
            answer,
            third,
        })
    }

    fn add_point(&mut self, own: Address, number: SequenceNumber) -> Result<Answered, Fault> {
        if self.points() == MOST_POINTS {
            return Err(Fault::SeventeenthPoint);
        }
        let mut table = [0; TABLE_OCTETS];
        let made = calls::fresh(&mut table, own, number);
        if made.is_ok() {
            self.tables.push(table);
        }
        Ok(Answered {
            answer: answer(made),
            third: 0,
        })
    }

    fn advance(&mut self, milliseconds: u32) -> Result<Answered, Fault> {
        self.clock += u64::from(milliseconds);
        if self.clock > CLOCK_MAX {
            return Err(Fault::Clock);
        }
        Ok(DONE)
    }

    fn link(&mut self, [one, other]: [Index; 2], metric: Metric) -> Result<Answered, Fault> {
        self.address(one)?;
        self.address(other)?;
        self.links[one][other] = metric;
        self.links[other][one] = metric;
        Ok(DONE)
    }

    fn deliver(&mut self, frame: Index, point: Index) -> Result<Answered, Fault> {
        self.address(point)?;
        let Sent { sender, element } = self.sent.get(frame).ok_or(Fault::BadIndex)?.clone();
        let transmitter = self.address(sender)?;
        let (clock, link) = (self.clock, self.links[sender][point]);
        self.call(point, |table, output| {
            receive::receive(table, output, clock, transmitter, link, &element)
        })
    }

    fn report_break(&mut self, point: Index, neighbour: Index) -> Result<Answered, Fault> {
        let neighbour = self.address(neighbour)?;
        let clock = self.clock;
        self.call(point, |table, output| {
            breaks::report_break(table, output, clock, neighbour)
        })
    }

    fn walk(&self, start: Index, destination: Index) -> Result<Answered, Fault> {
        let (start, destination) = (self.address(start)?, self.address(destination)?);
        let (tables, count) = (self.tables.as_flattened(), self.points() as u32);
        Ok(match walk(tables, count, self.clock, start, destination) {
            Ok(walked) => Answered {
                answer: walked.answer,
                third: walked.hops,
            },
            Err(refusal) => Answered {
                answer: refusal,
                third: 0,
            },
        })
    }

    fn address(&self, point: Index) -> Result<Address, Fault> {
        let table = self.tables.get(point).ok_or(Fault::BadIndex)?;
        let head = table.first_chunk().expect("a table begins with its head");
        Ok(Head::decode(head).own)
    }

    /// Makes a call of a point that may emit, and keeps what it emits.
    fn call(
        &mut self,
        point: Index,
        call: impl Fn(&mut [u8], &mut [u8]) -> Result<Emitted, Refusal>,
    ) -> Result<Answered, Fault> {
        let table = self.tables.get_mut(point).ok_or(Fault::BadIndex)?;
        let mut output = [0; LEAST_OUTPUT];
        let outcome = call(table, &mut output);
        let emitted = outcome.unwrap_or_default();
        self.keep(point, &output[..emitted.octets])?;
        Ok(Answered {
            answer: answer(outcome),
            third: emitted.frames,
        })
    }

    fn keep(&mut self, sender: Index, emitted: &[u8]) -> Result<(), Fault> {
        let sent = cut_frames(emitted).map(|(_, element)| Sent {
            sender,
            element: element.to_vec(),
        });
        self.sent.extend(sent);
        if self.frames() > MOST_FRAMES {
            return Err(Fault::FrameBeyond128);
        }
        Ok(())
    }
}
