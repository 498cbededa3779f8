//! Random tables, legal and damaged, and operands that suit them.

mod addresses;
mod damage;
mod items;
mod operands;

use crate::random::Random;
use crate::reference::table::{
    CLOCK_MAX, EXPIRY_MAX, HEAD_OCTETS, Head, INVALIDATED, ROW_OCTETS, Row, VALID, write_head,
    write_row,
};
use crate::reference::{Address, HopCount, Metric, RequestId, SequenceNumber};

use addresses::Family;

pub use addresses::{individual, not_individual, one_bit_off, some_addresses};
pub use damage::{damage, damaged, junk, resized};
pub use items::some_items;
pub use operands::{
    some_clock, some_destination, some_flags, some_lifetime, some_neighbour, some_output_length,
};

pub fn length(rows: usize) -> usize {
    HEAD_OCTETS + rows * ROW_OCTETS
}

/// Returns a number at either end or in the middle of the range, or any.
pub fn boundary32(random: &mut Random) -> u32 {
    let any = random.number() as u32;
    random.pick(&[0, 1, 2, (1 << 31) - 1, 1 << 31, u32::MAX - 1, u32::MAX, any])
}

fn clock48(random: &mut Random) -> u64 {
    let any = random.number() & CLOCK_MAX;
    random.pick(&[0, 1, 1 << 32, CLOCK_MAX - 1, CLOCK_MAX, any, any, any])
}

fn expiry(random: &mut Random) -> u64 {
    let any = random.number() % (EXPIRY_MAX + 1);
    let edge = random.pick(&[0, 1, CLOCK_MAX, CLOCK_MAX + 1, EXPIRY_MAX]);
    random.pick(&[any, any, edge])
}

/// Half of the latest clocks are low. Otherwise nearly all clocks would lie behind them.
fn head(own: Address, random: &mut Random) -> Head {
    let clock = clock48(random);
    Head {
        own,
        number: SequenceNumber(boundary32(random)),
        request_id: RequestId(boundary32(random)),
        latest_clock: random.pick(&[clock, clock >> 20]),
        ..Head::default()
    }
}

/// Returns a row as receiving might leave it. A row of unknown number leads straight to its
/// destination instead of through the next hop.
pub fn held_row(destination: Address, next_hop: Address, random: &mut Random) -> Row {
    let any = random.octet();
    let known = !random.one_in(4);
    Row {
        status: random.pick(&[VALID, VALID, INVALIDATED]),
        number_known: known.into(),
        hop_count: HopCount(if known {
            random.pick(&[0, 1, 2, 255, any])
        } else {
            1
        }),
        zero: 0,
        destination,
        next_hop: if known { next_hop } else { destination },
        number: SequenceNumber(if known { boundary32(random) } else { 0 }),
        metric: Metric(boundary32(random).max(1)),
        expiry: expiry(random),
    }
}

/// What the rows of one table have in common.
struct Mould {
    family: Family,
    /// How many neighbours the rows lead through. With 0, each row has a next hop of its own.
    neighbours: usize,
    free_in_8: usize,
    /// How many of 64 held rows a break of their next hop is sure to lose, if it comes soon.
    fragile_in_64: usize,
}

fn filled(rows: usize, mould: &Mould, random: &mut Random) -> Vec<u8> {
    let family = mould.family;
    let own = family.draw(random);
    let head = head(own, random);
    let soon = head.latest_clock + u64::from(boundary32(random).max(1));
    let neighbours: Vec<Address> = (0..mould.neighbours)
        .map(|_| family.draw_other_than(&[own], random))
        .collect();
    let mut octets = vec![0; length(rows)];
    write_head(&mut octets, &head);
    let mut taken = vec![own];
    for place in 0..rows {
        if random.below(8) < mould.free_in_8 {
            continue;
        }
        let next_hop = match neighbours[..] {
            [] => family.draw_other_than(&[own], random),
            _ => random.pick(&neighbours),
        };
        // Sometimes a neighbour has a row of its own. Its address is then both a destination and a
        // next hop, and a search must not confuse the two.
        let destination = if random.one_in(16) && !taken.contains(&next_hop) {
            next_hop
        } else {
            family.draw_other_than(&taken, random)
        };
        taken.push(destination);
        let mut row = held_row(destination, next_hop, random);
        if random.below(64) < mould.fragile_in_64 {
            row = fragile(row, next_hop, soon);
        }
        write_row(&mut octets, place, &row);
    }
    octets
}

/// Returns the row made valid and of known number. A row of unknown number could not keep this next
/// hop, and a break could not lose an invalidated row.
fn fragile(row: Row, next_hop: Address, expiry: u64) -> Row {
    Row {
        status: VALID,
        number_known: 1,
        next_hop,
        expiry,
        ..row
    }
}

/// Returns a legal table: full, or with free rows anywhere, as forgetting leaves them. It has few
/// or many next hops, so that a break loses none, one or several rows.
pub fn legal(rows: usize, random: &mut Random) -> Vec<u8> {
    let mould = Mould {
        family: Family::random(random),
        neighbours: random.pick(&[0, 0, 1, 3]),
        free_in_8: random.pick(&[0, 1, 4, 7]),
        fragile_in_64: 0,
    };
    filled(rows, &mould, random)
}

/// Returns a legal table with every row held and unrelated addresses.
pub fn full(rows: usize, random: &mut Random) -> Vec<u8> {
    let mould = Mould {
        family: Family::Unrelated,
        neighbours: 0,
        free_in_8: 0,
        fragile_in_64: 0,
    };
    filled(rows, &mould, random)
}

/// Returns a legal table in which one break can lose nearly all rows. Several RERRs are needed only
/// if many rows are lost at once.
pub fn leaning(rows: usize, random: &mut Random) -> Vec<u8> {
    let mould = Mould {
        family: Family::random(random),
        neighbours: 1,
        free_in_8: 0,
        fragile_in_64: random.pick(&[32, 56, 63, 64]),
    };
    filled(rows, &mould, random)
}

/// Returns the offset of some row.
fn some_row(octets: &[u8], random: &mut Random) -> usize {
    HEAD_OCTETS + ROW_OCTETS * random.below((octets.len() - HEAD_OCTETS) / ROW_OCTETS)
}

/// Returns the offset of a row, a held one if it is found quickly.
fn some_held_row(octets: &[u8], random: &mut Random) -> usize {
    let rows = [(); 4].map(|_| some_row(octets, random));
    rows.into_iter()
        .find(|&row| octets[row] != 0)
        .unwrap_or(rows[0])
}

fn address_at(octets: &[u8], at: usize) -> [u8; 6] {
    octets[at..at + 6].try_into().unwrap()
}

fn number_at(octets: &[u8], at: usize) -> u64 {
    u64::from_le_bytes(octets[at..at + 8].try_into().unwrap())
}
