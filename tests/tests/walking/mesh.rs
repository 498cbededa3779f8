//! Tables side by side whose rows lead from point to point.

use hwmp_tests::random::Random;
use hwmp_tests::reference::Address;
use hwmp_tests::reference::table::{
    CLOCK_MAX, EXPIRY_MAX, HEAD_OCTETS, MAX_ROWS, ROW_OCTETS, Row, VALID, write_row,
};
use hwmp_tests::reference::walk::MOST_POINTS;
use hwmp_tests::tables;

/// How many destinations have rows, for walks to them. A table of fewer rows has rows for some of
/// them only.
const DESTINATIONS: usize = 4;

pub struct Mesh {
    pub tables: Vec<Vec<u8>>,
    pub addresses: Vec<[u8; 6]>,
    pub destinations: Vec<[u8; 6]>,
    /// No table has a later latest clock, unless it is damaged.
    pub clock: u64,
    /// How many of 64 rows are invalidated or expire about now.
    lost_in_64: usize,
}

impl Mesh {
    pub fn random(random: &mut Random) -> Mesh {
        let any = 1 + random.below(MOST_POINTS);
        let count = random.pick(&[any, any, MOST_POINTS]);
        let addresses = tables::some_addresses(count, random);
        let rows = some_rows(random);
        let clock = some_clock(random);
        let point = |own: &[u8; 6]| some_table(*own, rows, clock, random);
        let mut mesh = Mesh {
            tables: addresses.iter().map(point).collect(),
            destinations: Vec::new(),
            addresses,
            clock,
            lost_in_64: random.pick(&[0, 0, 2, 8]),
        };
        for remainder in 0..DESTINATIONS.min(rows) {
            mesh.lead_to_some_destination(remainder, random);
        }
        mesh
    }

    pub fn count(&self) -> usize {
        self.tables.len()
    }

    /// Gives the points rows for one destination. The places for each destination have a remainder
    /// of their own, so that no row overwrites another.
    fn lead_to_some_destination(&mut self, remainder: usize, random: &mut Random) {
        let destination = self.some_new_destination(random);
        let next_hops = self.some_next_hops(destination, random);
        for (table, next_hop) in self.tables.iter_mut().zip(next_hops) {
            if !table.starts_with(&destination) {
                let rows = (table.len() - HEAD_OCTETS) / ROW_OCTETS;
                let before = random.below(rows.div_ceil(DESTINATIONS)) * DESTINATIONS;
                let place = if before + remainder < rows {
                    before + remainder
                } else {
                    remainder
                };
                let mut row = lasting(destination, next_hop, self.clock, random);
                if random.below(64) < self.lost_in_64 {
                    row = lost(row, self.clock, random);
                }
                write_row(table, place, &row);
            }
        }
        self.destinations.push(destination);
    }

    /// Returns a point, an address much like a point's, or any, but no destination twice.
    fn some_new_destination(&self, random: &mut Random) -> [u8; 6] {
        loop {
            let point = random.pick(&self.addresses);
            let near = tables::one_bit_off(point, random);
            let any = tables::individual(random).0;
            let destination = random.pick(&[point, point, near, any]);
            let fits = Address(destination).is_individual();
            if fits && !self.destinations.contains(&destination) {
                return destination;
            }
        }
    }

    /// Returns for each point its next hop towards the destination. All points stand in one line or
    /// ring, or lead anywhere; sometimes a hop leaves the mesh. No next hop is the point itself.
    fn some_next_hops(&self, destination: [u8; 6], random: &mut Random) -> Vec<[u8; 6]> {
        let order = some_order(self.count(), random);
        let shape = random.below(4);
        let leaving_in_64 = random.pick(&[0, 0, 1, 8]);
        let mut next_hops = vec![destination; self.count()];
        for (place, &point) in order.iter().enumerate() {
            let next = match shape {
                // If the destination is a point, it is met on the way.
                0 => order.get(place + 1).copied(),
                1 => Some(order[(place + 1) % order.len()]),
                // At the end of the line, back to some earlier point.
                2 if place + 1 == order.len() => Some(order[random.below(order.len())]),
                2 => Some(order[place + 1]),
                _ => Some(random.below(self.count())),
            };
            let leaves = random.below(64) < leaving_in_64;
            next_hops[point] = match next {
                _ if leaves => self.some_stranger(random),
                Some(next) if next != point => self.addresses[next],
                _ => destination,
            };
        }
        next_hops
    }

    /// Returns an address that is no point's, though it may look much like one.
    fn some_stranger(&self, random: &mut Random) -> [u8; 6] {
        loop {
            let near = tables::one_bit_off(random.pick(&self.addresses), random);
            let any = tables::individual(random).0;
            let address = random.pick(&[near, any]);
            if Address(address).is_individual() && !self.addresses.contains(&address) {
                return address;
            }
        }
    }
}

/// Returns mostly few rows, because a comparison on many rows takes long.
fn some_rows(random: &mut Random) -> usize {
    let any = 1 + random.below(MAX_ROWS);
    let few = 1 + random.below(12);
    random.pick(&[1, few, few, few, few, few, few, few, MAX_ROWS, any])
}

fn some_clock(random: &mut Random) -> u64 {
    let any = random.number() & CLOCK_MAX;
    random.pick(&[0, 1, any, any, any >> 20, CLOCK_MAX - 1, CLOCK_MAX])
}

/// Returns the numbers of the points in any order.
fn some_order(count: usize, random: &mut Random) -> Vec<usize> {
    let mut order: Vec<usize> = (0..count).collect();
    for place in (1..count).rev() {
        order.swap(place, random.below(place + 1));
    }
    order
}

/// Returns a legal table of a point whose latest clock is at most `clock`. Its rows are for
/// addresses that no other point has.
fn some_table(own: [u8; 6], rows: usize, clock: u64, random: &mut Random) -> Vec<u8> {
    let mut table = tables::legal(rows, random);
    let latest = random.pick(&[clock, clock, clock - clock / 3, 0]);
    table[..6].copy_from_slice(&own);
    table[16..24].copy_from_slice(&latest.to_le_bytes());
    table
}

/// Returns a row that is active at the clock.
fn lasting(destination: [u8; 6], next_hop: [u8; 6], clock: u64, random: &mut Random) -> Row {
    let row = tables::held_row(Address(destination), Address(next_hop), random);
    let leads_there = row.next_hop.0 == next_hop;
    Row {
        status: VALID,
        // A row of unknown number leads straight to its destination.
        number_known: if leads_there { row.number_known } else { 1 },
        next_hop: Address(next_hop),
        expiry: random.pick(&[clock + 1, clock + 1000, EXPIRY_MAX]),
        ..row
    }
}

/// Returns the row invalidated, or with an expiry about now.
fn lost(row: Row, clock: u64, random: &mut Random) -> Row {
    if random.one_in(3) {
        return row.invalidated();
    }
    let expiry = (clock + random.below(3) as u64).saturating_sub(1);
    Row { expiry, ..row }
}
