//! What points do of their own accord, and what happens to links.

use super::drive::LINKS;
use super::queue::Event;
use super::{DAY, Days, HOUR, PORTALS, ROOTS, SECOND};
use crate::comparing::{Point, Run};
use crate::library::Outcome;
use crate::tables;

impl Days {
    pub(super) fn root_request(&mut self, root: usize) {
        let (point, flags, gaps) = ROOTS[root];
        let lifetime = self.some_lifetime();
        self.call(point, |point, run| point.root_request(flags, lifetime, run));
        self.happens_after(gaps * self.gap, Event::RootRequest(root));
    }

    pub(super) fn portal_announces(&mut self, portal: usize) {
        let (point, flags, gaps) = PORTALS[portal];
        self.announce(point, flags);
        self.happens_after(gaps * self.gap, Event::Announcement(portal));
    }

    fn announce(&mut self, point: usize, flags: u8) {
        let lifetime = self.some_lifetime();
        self.call(point, |point, run| point.announce(flags, lifetime, run));
    }

    /// Lets some point do something, or something happen to a link.
    pub(super) fn incident(&mut self) {
        let point = self.some_point();
        let link = self.run.random.below(LINKS.len());
        match self.run.random.below(32) {
            0..13 => self.ask(point),
            13..17 => self.lose_link(link),
            17..22 if self.drive.has(link) => self.drive.renew(link, &mut self.run.random),
            22..26 => self.report_some_neighbour(point),
            26..28 => self.announce(point, 0),
            _ => self.find_next_hop(point),
        }
        self.walk_somewhere();
        let gap = 1 + self.below(2 * self.gap);
        self.happens_after(gap, Event::Incident);
    }

    /// Asks mostly for points of the drive, sometimes for a stranger. The own address, or an
    /// address twice, is refused.
    fn ask(&mut self, point: usize) {
        let lifetime = self.some_lifetime();
        let random = &mut self.run.random;
        let mut items = Vec::new();
        for _ in 0..random.pick(&[1, 1, 1, 2, 4]) {
            let stranger = tables::individual(random).0;
            let member = random.pick(self.mesh.addresses());
            items.push(random.below(4) as u8);
            items.extend(if random.one_in(20) { stranger } else { member });
        }
        self.call(point, |point, run| point.ask(lifetime, &items, run));
    }

    /// Takes the link away for some time.
    fn lose_link(&mut self, link: usize) {
        self.drive.lose(link);
        let (one, other) = LINKS[link];
        self.find_out(one, other);
        self.find_out(other, one);
        let away = 1 + self.below(24 * self.gap);
        self.happens_after(away, Event::LinkBack(link));
    }

    /// Plans that a point finds out about a lost link: soon, late, or not at all.
    fn find_out(&mut self, point: usize, neighbour: usize) {
        let (soon, late) = (self.below(2 * SECOND), self.some_delay());
        let found_out = Event::Break { point, neighbour };
        match self.run.random.below(4) {
            0 => {}
            1 => self.happens_after(late, found_out),
            _ => self.happens_after(soon, found_out),
        }
    }

    /// Reports a neighbour as broken although its link is there, as if it was not heard for a
    /// while.
    fn report_some_neighbour(&mut self, point: usize) {
        let neighbours = self.drive.neighbours(point);
        if !neighbours.is_empty() {
            let neighbour = self.run.random.pick(&neighbours);
            self.report_break(point, neighbour);
        }
    }

    pub(super) fn report_break(&mut self, point: usize, neighbour: usize) {
        let clock = self.some_clock();
        let neighbour = self.mesh.addresses()[neighbour];
        self.call(point, |point, run| {
            point.report_break(clock, neighbour, run)
        });
    }

    fn find_next_hop(&mut self, point: usize) {
        let (clock, destination) = (self.some_clock(), self.some_destination());
        (self.mesh).next_hop(point, clock, destination, &mut self.run);
    }

    /// Lets every point announce itself, so that each hears something at the last clock.
    pub(super) fn last_moment(&mut self) {
        self.drive.restore(&mut self.run.random);
        for point in 0..self.mesh.addresses().len() {
            self.announce(point, 0);
        }
    }

    fn call(&mut self, point: usize, call: impl FnOnce(&mut Point, &mut Run) -> Outcome) {
        let sent = (self.mesh).call(point, &mut self.run, &mut self.seen, call);
        self.after(point, sent);
    }

    /// Some lifetimes let rows expire before anybody asks again. Others outlast the thirty days.
    fn some_lifetime(&mut self) -> u32 {
        let lifetimes = [SECOND, 30 * SECOND, HOUR / 6, 6 * HOUR, 2 * DAY];
        let lifetime = self.run.random.pick(&lifetimes) as u32;
        let lifetimes = [lifetime, lifetime, lifetime, u32::MAX];
        self.run.random.pick(&lifetimes)
    }

    /// Sometimes behind, because the clocks of two points may differ.
    pub(super) fn some_clock(&mut self) -> u64 {
        let most = self.run.random.pick(&[20, HOUR]);
        let behind = self.below(most);
        if self.run.random.one_in(32) {
            self.mesh.clock.saturating_sub(behind)
        } else {
            self.mesh.clock
        }
    }
}
