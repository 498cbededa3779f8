use std::collections::BTreeMap;
use std::rc::Rc;

use crate::mesh::Sent;

/// An event that is planned.
pub enum Event {
    /// A root sends a root request. Its number is its place among the roots.
    RootRequest(usize),
    /// A portal announces itself. Its number is its place among the portals.
    Announcement(usize),
    Incident,
    /// A point finds out that it no longer hears another.
    Break {
        point: usize,
        neighbour: usize,
    },
    LinkBack(usize),
    Arrival(Arrival),
    /// Walks from every point to every point.
    Tour,
    LastMoment,
}

/// A frame, with its number among all that were sent.
pub struct Frame {
    pub number: u64,
    pub sent: Sent,
}

pub struct Arrival {
    pub frame: Rc<Frame>,
    pub receiver: usize,
    /// Whether the frame arrives without a link of the drive.
    pub is_stray: bool,
}

/// The events up to the last clock, earliest first. Events at one clock come in the order in which
/// they were added.
pub struct Queue {
    last: u64,
    waiting: BTreeMap<(u64, u64), Event>,
    added: u64,
}

impl Queue {
    pub fn up_to(last: u64) -> Queue {
        Queue {
            last,
            waiting: BTreeMap::new(),
            added: 0,
        }
    }

    /// Drops an event after the last clock.
    pub fn add(&mut self, clock: u64, event: Event) {
        if clock <= self.last {
            self.added += 1;
            self.waiting.insert((clock, self.added), event);
        }
    }

    /// Moves an arrival after the last clock to the last clock, so that every frame arrives.
    pub fn add_arrival(&mut self, clock: u64, arrival: Arrival) {
        self.add(clock.min(self.last), Event::Arrival(arrival));
    }

    pub fn next(&mut self) -> Option<(u64, Event)> {
        let ((clock, _), event) = self.waiting.pop_first()?;
        Some((clock, event))
    }
}
