use crate::reference::Address;
use crate::reference::table::{Table, VALID};
use crate::reference::walk::MOST_POINTS;

/// Where each point's valid rows lead, expired or not. For each point and each destination it has
/// the next hop, all by their numbers. A next hop that is not a point ends a walk, and so does a
/// missing row.
pub struct Ways([[Option<Way>; MOST_POINTS]; MOST_POINTS]);

#[derive(Clone, Copy)]
struct Way {
    next_hop: usize,
    expiry: u64,
}

impl Ways {
    pub(super) fn none() -> Ways {
        Ways([[None; MOST_POINTS]; MOST_POINTS])
    }

    /// Replaces the ways of one point by those in its table.
    pub(super) fn take(&mut self, point: usize, table: &Table, addresses: &[[u8; 6]]) {
        let number = |address: Address| addresses.iter().position(|known| *known == address.0);
        self.0[point] = [None; MOST_POINTS];
        for row in table.rows().filter(|row| row.status == VALID) {
            if let Some(destination) = number(row.destination) {
                let expiry = row.expiry;
                let way = |next_hop| Way { next_hop, expiry };
                self.0[point][destination] = number(row.next_hop).map(way);
            }
        }
    }

    /// Returns a point with a row through `next_hop`. The search begins at the point `from`.
    pub fn leading_through(&self, next_hop: usize, from: usize) -> Option<usize> {
        let points = (from..MOST_POINTS).chain(0..from);
        let leads = |&point: &usize| {
            let mut ways = self.0[point].iter().flatten();
            ways.any(|way| way.next_hop == next_hop)
        };
        points.into_iter().find(leads)
    }

    /// Walks from point to point towards the destination, until a point is met again or there is no
    /// way.
    pub(super) fn walk(&self, start: usize, destination: usize, clock: u64) -> Walk {
        let mut met = 0_u32;
        let mut at = start;
        let (mut hops, mut expired) = (0, 0);
        loop {
            if met >> at & 1 == 1 {
                return Walk::MeetsAgain(at);
            }
            met |= 1 << at;
            let Some(way) = self.0[at][destination] else {
                return Walk::Ends { hops, expired };
            };
            at = way.next_hop;
            hops += 1;
            expired += u64::from(way.expiry <= clock);
        }
    }
}

#[derive(Debug, PartialEq, Eq)]
pub(super) enum Walk {
    /// The walk ended after `hops` hops, `expired` of them along expired rows.
    Ends {
        hops: usize,
        expired: u64,
    },
    MeetsAgain(usize),
}
