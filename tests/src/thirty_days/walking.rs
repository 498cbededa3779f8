//! Walks from point to point.

use super::queue::Event;
use super::{Days, HOUR};
use crate::answers::{ACCEPTED, TOO_LONG};
use crate::comparing::Walk;
use crate::library::Walked;
use crate::tables;

impl Days {
    /// Walks from every point to every point, twice a day.
    pub(super) fn tour(&mut self) {
        let mut walk = self.walk_at(self.mesh.clock);
        for start in self.mesh.addresses().to_vec() {
            walk.start = start;
            self.walk_to_all(&mut walk);
        }
        self.happens_after(12 * HOUR, Event::Tour);
    }

    fn walk_to_all(&mut self, walk: &mut Walk) {
        for destination in self.mesh.addresses().to_vec() {
            walk.destination = destination;
            self.walk(walk);
        }
    }

    /// Walks somewhere. Sometimes the clock is behind, start or destination is a stranger, or the
    /// destination is not an individual address.
    pub(super) fn walk_somewhere(&mut self) {
        let clock = self.some_clock();
        let mut walk = self.walk_at(clock);
        walk.start = self.some_address();
        walk.destination = self.some_destination();
        self.walk(&walk);
    }

    /// Returns a walk over the tables as they are. The caller must set start and destination.
    fn walk_at(&self, clock: u64) -> Walk {
        let points = 0..self.mesh.addresses().len();
        let tables: Vec<&[u8]> = points.map(|point| self.mesh.table(point)).collect();
        Walk {
            count: tables.len() as u32,
            tables: tables.concat(),
            clock,
            start: [0; 6],
            destination: [0; 6],
        }
    }

    /// Where demand 3 holds, no walk has as many hops as there are points (42), because it would
    /// have met a point twice.
    fn walk(&mut self, walk: &Walk) {
        let Walked { answer, hops } = self.walks.compare(walk);
        assert_ne!(answer, TOO_LONG, "{walk:?}");
        if answer == ACCEPTED {
            self.most_hops = self.most_hops.max(hops);
        }
    }

    /// Returns mostly the address of a point of the drive.
    fn some_address(&mut self) -> [u8; 6] {
        let random = &mut self.run.random;
        let stranger = tables::individual(random).0;
        let member = random.pick(self.mesh.addresses());
        if random.one_in(32) { stranger } else { member }
    }

    pub(super) fn some_destination(&mut self) -> [u8; 6] {
        let address = self.some_address();
        let random = &mut self.run.random;
        let group = tables::not_individual(random).0;
        if random.one_in(32) { group } else { address }
    }
}
