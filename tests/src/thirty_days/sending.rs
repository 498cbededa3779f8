//! What happens to frames on their way, and what is received.

use std::rc::Rc;

use super::queue::{Arrival, Frame};
use super::{Days, HOUR, SECOND};
use crate::comparing::Point;
use crate::mesh::Sent;
use crate::received::{self, Received};

/// The ways in which a delivery goes wrong, as they are counted.
pub const LOST: &str = "lost";
pub const LATE: &str = "late";
pub const REPEATED: &str = "repeated";
pub const OUT_OF_ORDER: &str = "after a later frame of the same sender";
pub const STRAY: &str = "to any point";
pub const DAMAGED: &str = "damaged or foreign";

impl Days {
    pub(super) fn send(&mut self, sent: Vec<Sent>) {
        for sent in sent {
            self.frames += 1;
            let number = self.frames;
            self.spread(&Rc::new(Frame { number, sent }));
        }
    }

    fn spread(&mut self, frame: &Rc<Frame>) {
        for receiver in self.receivers(&frame.sent) {
            self.carry(frame, receiver);
        }
        if self.run.random.one_in(100) {
            self.stray(frame);
        }
    }

    /// Returns the neighbours of the sender, if the frame is for all. Otherwise returns the
    /// neighbour that it is for, and sometimes another that overhears it.
    fn receivers(&mut self, sent: &Sent) -> Vec<usize> {
        let mut receivers = self.drive.neighbours(sent.from);
        if let Some(to) = sent.to {
            receivers.retain(|&neighbour| neighbour == to || self.run.random.one_in(8));
        }
        receivers
    }

    fn carry(&mut self, frame: &Rc<Frame>, receiver: usize) {
        let in_time = 1 + self.below(30);
        let late = self.some_delay();
        match self.run.random.below(32) {
            0 | 1 => self.seen.count(LOST, 0),
            2 => {
                self.seen.count(LATE, 0);
                self.arrives_after(late, frame, receiver, false);
            }
            3 => {
                self.seen.count(REPEATED, 0);
                self.arrives_after(in_time, frame, receiver, false);
                self.arrives_after(late, frame, receiver, false);
            }
            _ => self.arrives_after(in_time, frame, receiver, false),
        }
    }

    /// Demand 3 lets every point receive what was sent, linked or not, the sender too.
    fn stray(&mut self, frame: &Rc<Frame>) {
        self.seen.count(STRAY, 0);
        let (receiver, delay) = (self.some_point(), self.some_delay());
        self.arrives_after(delay, frame, receiver, true);
    }

    /// Returns a delay from seconds to hours.
    pub(super) fn some_delay(&mut self) -> u64 {
        let bounds = [5 * SECOND, HOUR / 60, HOUR / 6, 6 * HOUR];
        let most = self.run.random.pick(&bounds);
        1 + self.below(most)
    }

    fn arrives_after(&mut self, delay: u64, frame: &Rc<Frame>, receiver: usize, is_stray: bool) {
        let arrival = Arrival {
            frame: Rc::clone(frame),
            receiver,
            is_stray,
        };
        self.queue.add_arrival(self.mesh.clock + delay, arrival);
    }

    pub(super) fn arrive(&mut self, arrival: &Arrival) {
        let Arrival {
            frame, receiver, ..
        } = arrival;
        self.note_order(frame, *receiver);
        let received = Received {
            clock: self.some_clock(),
            transmitter: self.mesh.addresses()[frame.sent.from],
            link_metric: self.link_metric(arrival),
            element: frame.sent.element.clone(),
        };
        if self.run.random.one_in(64) {
            self.receive_damaged(received.clone(), *receiver);
        }
        let sent = (self.mesh).receive(*receiver, &received, &mut self.run, &mut self.seen);
        self.after(*receiver, sent);
    }

    /// A link that is gone by now has metric 0, which is refused (5).
    fn link_metric(&mut self, arrival: &Arrival) -> u32 {
        if arrival.is_stray {
            1 + self.below(60) as u32
        } else {
            (self.drive).metric(arrival.frame.sent.from, arrival.receiver)
        }
    }

    fn note_order(&mut self, frame: &Frame, receiver: usize) {
        let latest = &mut self.heard[receiver][frame.sent.from];
        if frame.number < *latest {
            self.seen.count(OUT_OF_ORDER, 0);
        }
        *latest = frame.number.max(*latest);
    }

    /// A damaged element may be valid although no point sent it. Demand 3 does not cover a damaged
    /// element, so the point itself must not learn from it: a copy of the point receives it.
    fn receive_damaged(&mut self, mut received: Received, receiver: usize) {
        let table = self.mesh.table(receiver);
        let random = &mut self.run.random;
        received::spoil(&mut received, table, random);
        let mut copy = Point::new(table, random);
        copy.receive(&received, &mut self.run);
        self.seen.count(DAMAGED, 0);
    }
}
