//! Points that send to each other. After every accepted call the point's octets must still be a
//! table, its frames must be readable, and demand 3 must hold (docs/PROTOCOL.md, 'Demands').

mod ways;
mod window;

use crate::answers::ACCEPTED;
use crate::comparing::{Point, Run, Tally, frames};
use crate::library::Outcome;
use crate::random::Random;
use crate::received::Received;
use crate::reference::element::Element;
use crate::reference::table::Table;
use crate::reference::{Address, SequenceNumber};
use crate::tables;

use ways::Walk;

pub use ways::Ways;
pub use window::Window;

/// A frame that one of the points sent.
pub struct Sent {
    pub from: usize,
    /// The point that the frame is for, or None if it is for all.
    pub to: Option<usize>,
    pub element: Vec<u8>,
}

pub struct Mesh {
    addresses: Vec<[u8; 6]>,
    points: Vec<Point>,
    pub clock: u64,
    /// One window for each point as a destination.
    windows: Vec<Window>,
    ways: Ways,
    /// The most hops of any walk along valid rows.
    pub most_hops: usize,
    pub expired_met: u64,
}

/// What is counted in addition to the answers.
pub const ACCEPTED_BY_ID: &str = "accepted by a mesh, by ID";
pub const WALKS: &str = "walks, with the premise 1, without 0";
pub const LOOPS: &str = "walks that meet a point twice, without the premise 0";

impl Mesh {
    /// Makes fresh tables of `rows` rows for these addresses, each with some own number.
    pub fn fresh(
        addresses: Vec<[u8; 6]>,
        rows: usize,
        mut some_number: impl FnMut(&mut Random) -> u32,
        run: &mut Run,
    ) -> Mesh {
        let points = addresses.iter().map(|address| {
            let mut point = Point::new(&vec![0xEE; tables::length(rows)], &mut run.random);
            point.fresh(*address, some_number(&mut run.random), run);
            point
        });
        let mut mesh = Mesh {
            points: points.collect(),
            clock: 0,
            windows: vec![Window::Empty; addresses.len()],
            ways: Ways::none(),
            most_hops: 0,
            expired_met: 0,
            addresses,
        };
        for point in 0..mesh.addresses.len() {
            mesh.note_held(point);
        }
        mesh
    }

    pub fn addresses(&self) -> &[[u8; 6]] {
        &self.addresses
    }

    pub fn table(&self, point: usize) -> &[u8] {
        self.points[point].table()
    }

    pub fn ways(&self) -> &Ways {
        &self.ways
    }

    /// Makes a call of one point, checks what must hold after it, and returns what it sends.
    pub fn call(
        &mut self,
        point: usize,
        run: &mut Run,
        seen: &mut Tally,
        call: impl FnOnce(&mut Point, &mut Run) -> Outcome,
    ) -> Vec<Sent> {
        let outcome = call(&mut self.points[point], run);
        self.after(point, outcome, run, seen)
    }

    /// Lets a point receive an element, checks what must hold after it, and returns what it sends.
    pub fn receive(
        &mut self,
        point: usize,
        received: &Received,
        run: &mut Run,
        seen: &mut Tally,
    ) -> Vec<Sent> {
        let outcome = self.points[point].receive(received, run);
        if outcome.answer == ACCEPTED {
            seen.count(ACCEPTED_BY_ID, received.element[0].into());
        }
        self.after(point, outcome, run, seen)
    }

    /// Asks for a next hop, which changes nothing.
    pub fn next_hop(&mut self, point: usize, clock: u64, destination: [u8; 6], run: &mut Run) {
        self.points[point].next_hop(clock, destination, run);
    }

    /// A refused call changed nothing, so there is nothing new to check.
    fn after(&mut self, point: usize, outcome: Outcome, run: &Run, seen: &mut Tally) -> Vec<Sent> {
        if outcome.answer != ACCEPTED {
            return Vec::new();
        }
        let sent = self.cut_sent(point, outcome);
        self.note_held(point);
        for destination in self.changed_destinations(point) {
            self.check_walks(destination, run, seen);
        }
        sent
    }

    /// Cuts what a point emitted into frames. Each element must be readable.
    fn cut_sent(&mut self, from: usize, outcome: Outcome) -> Vec<Sent> {
        let emitted = self.points[from].emitted().to_vec();
        let mut sent = Vec::new();
        for (receiver, element) in frames(&emitted) {
            let read = Element::read(element).expect("what a point emits can be read");
            self.note_carried(&read);
            sent.push(Sent {
                from,
                to: self.place_of(Address(receiver)),
                element: element.to_vec(),
            });
        }
        assert_eq!(sent.len(), outcome.frames as usize, "frames in {emitted:?}");
        sent
    }

    /// Notes the numbers next to addresses in an element. The 0 of a marked destination is none of
    /// them. The 0 that a RERR has for a row of unknown number is.
    fn note_carried(&mut self, element: &Element) {
        match element {
            Element::Rann(rann) => self.note(rann.originator, rann.number),
            Element::Rreq(rreq) => {
                self.note(rreq.originator, rreq.number);
                for destination in rreq.destinations() {
                    if let Some(requested) = destination.requested() {
                        self.note(destination.address, requested);
                    }
                }
            }
            Element::Rrep(rrep) => {
                self.note(rrep.destination, rrep.number);
                self.note(rrep.source, rrep.source_number);
                for dependent in rrep.dependents() {
                    self.note(dependent.address, dependent.number);
                }
            }
            Element::Rerr(rerr) => {
                for destination in rerr.destinations() {
                    self.note(destination.address, destination.number);
                }
            }
        }
    }

    /// Notes the own number of a point, the known numbers of its rows, and where its rows lead.
    fn note_held(&mut self, point: usize) {
        let octets = self.points[point].table().to_vec();
        let table = Table::cut(&octets).expect("a table's length");
        assert_eq!(table.check(), Ok(()), "no table is left: {octets:?}");
        self.note(table.head().own, table.head().number);
        for row in table.rows().filter(|row| row.has_known_number()) {
            self.note(row.destination, row.number);
        }
        self.ways.take(point, &table, &self.addresses);
    }

    /// Only points are destinations of walks, so no other address needs a window.
    fn note(&mut self, address: Address, number: SequenceNumber) {
        if let Some(place) = self.place_of(address) {
            self.windows[place].note(number.0);
        }
    }

    fn place_of(&self, address: Address) -> Option<usize> {
        self.addresses.iter().position(|known| *known == address.0)
    }

    /// Returns the destinations of the rows that the last call of a point changed.
    fn changed_destinations(&self, point: usize) -> Vec<usize> {
        let point = &self.points[point];
        let [before, after] = [point.before(), point.table()].map(|octets| {
            let table = Table::cut(octets).expect("a table's length");
            table.rows().collect::<Vec<_>>()
        });
        let rows = before.iter().zip(&after);
        rows.filter(|(before, after)| before != after)
            .filter_map(|(_, after)| self.place_of(after.destination))
            .collect()
    }

    pub fn meets_premise(&self, destination: usize) -> bool {
        self.windows[destination].meets_premise()
    }

    pub fn check_all_walks(&mut self, run: &Run, seen: &mut Tally) {
        for destination in 0..self.points.len() {
            self.check_walks(destination, run, seen);
        }
    }

    /// Checks demand 3 for one destination: no walk from any point may meet a point twice.
    fn check_walks(&mut self, destination: usize, run: &Run, seen: &mut Tally) {
        let premise = self.meets_premise(destination);
        for start in 0..self.points.len() {
            seen.count(WALKS, premise.into());
            match self.ways.walk(start, destination, self.clock) {
                Walk::Ends { hops, expired } => {
                    self.most_hops = self.most_hops.max(hops);
                    self.expired_met += expired;
                }
                Walk::MeetsAgain(point) => {
                    let calls = run.answers.total();
                    let what = format_args!("from {start} to {destination}, {calls} calls");
                    assert!(!premise, "{what}: point {point} is met again");
                    seen.count(LOOPS, 0);
                }
            }
        }
    }
}
