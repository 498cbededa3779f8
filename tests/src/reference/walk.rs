//! The walk of docs/PROTOCOL.md, 'Walk': from point to point along active rows.

use super::element::list::has_twice;
use super::refusal::ensure;
use super::table::Table;
use super::{Address, Refusal, checks};
use crate::answers::{ACCEPTED, BAD_ADDRESS, BAD_LIST, NO_ROUTE, TABLE_LENGTH, TOO_LONG};

pub const MOST_POINTS: usize = 16;

#[derive(Clone, Copy, Debug, PartialEq, Eq)]
pub struct Walked {
    pub answer: u32,
    pub hops: usize,
}

pub fn walk(
    octets: &[u8],
    count: u32,
    clock: u64,
    start: Address,
    destination: Address,
) -> Result<Walked, Refusal> {
    let points = Points::cut(octets, count).ok_or(TABLE_LENGTH)?;
    checks::clock(clock)?;
    ensure(destination.is_individual(), BAD_ADDRESS)?;
    ensure(!has_twice(points.addresses()), BAD_LIST)?;
    let start = points.at(start).ok_or(BAD_LIST)?;
    points
        .iter()
        .try_for_each(|table| checks::is_table(&table))?;
    points
        .iter()
        .try_for_each(|table| checks::clock_not_behind(clock, &table))?;
    Ok(points.follow(start, destination, clock))
}

/// The tables of several points side by side.
struct Points<'a> {
    octets: &'a [u8],
    count: usize,
}

impl<'a> Points<'a> {
    /// Returns None unless the octets are 1 to 16 pieces of a table's length.
    fn cut(octets: &'a [u8], count: u32) -> Option<Points<'a>> {
        let count = usize::try_from(count).ok()?;
        let fits = (1..=MOST_POINTS).contains(&count) && octets.len().is_multiple_of(count);
        let points = fits.then_some(Points { octets, count })?;
        let first = &octets[..points.table_octets()];
        Table::cut(first).map(|_| points)
    }

    fn table_octets(&self) -> usize {
        self.octets.len() / self.count
    }

    fn iter(&self) -> impl Iterator<Item = Table<'a>> + Clone {
        let pieces = self.octets.chunks_exact(self.table_octets());
        pieces.map(|piece| Table::cut(piece).expect("as long as the first piece"))
    }

    /// Returns the own addresses, whether or not the rest of the octets is a table.
    fn addresses(&self) -> impl Iterator<Item = Address> + Clone {
        self.iter().map(|table| table.head().own)
    }

    /// Returns the table of the point that has this address.
    fn at(&self, address: Address) -> Option<Table<'a>> {
        self.iter().find(|table| table.head().own == address)
    }

    fn follow(&self, start: Table<'a>, destination: Address, clock: u64) -> Walked {
        let ends = |answer, hops| Walked { answer, hops };
        if start.head().own == destination {
            return ends(ACCEPTED, 0);
        }
        let mut here = start;
        for hops in 0..self.count {
            let row = here.active_row_for(destination, clock);
            let next_hop = row.map(|(_, row)| row.next_hop);
            if next_hop == Some(destination) {
                return ends(ACCEPTED, hops + 1);
            }
            match next_hop.and_then(|next_hop| self.at(next_hop)) {
                Some(next) => here = next,
                None => return ends(NO_ROUTE, hops),
            }
        }
        ends(TOO_LONG, self.count)
    }
}
