//! The report of a broken neighbour: docs/PROTOCOL.md, 'Errors and breaks'.

use super::element::list::Entries;
use super::element::{Element, NumberedAddress, Rerr};
use super::frames::{Emitted, Frames};
use super::table::{MAX_ROWS, ROW_OCTETS, Row, rows_mut, write_head};
use super::{Address, Refusal, checks};

type Lost = Entries<{ NumberedAddress::OCTETS }, MAX_ROWS>;

pub fn report_break(
    octets: &mut [u8],
    output: &mut [u8],
    clock: u64,
    neighbour: Address,
) -> Result<Emitted, Refusal> {
    let table = checks::table_length(octets)?;
    let mut frames = Frames::start(output)?;
    checks::clock(clock)?;
    checks::neighbour(neighbour)?;
    let head = checks::head_at(clock, neighbour, &table)?;
    write_head(octets, &head);
    let mut lost = Lost::new();
    lose_rows(rows_mut(octets), clock, neighbour, &mut lost);
    for destinations in lost.as_slice().chunks(Rerr::MOST) {
        let error = Rerr {
            flags: 0,
            destinations,
        };
        frames.emit(Address::ALL_ONES, Element::Rerr(error));
    }
    Ok(frames.emitted())
}

/// Invalidates the active rows through the neighbour and lists them in table order. The list is
/// filled in place, because returning one with room for all rows would copy it.
fn lose_rows(rows: &mut [[u8; ROW_OCTETS]], clock: u64, neighbour: Address, lost: &mut Lost) {
    for place in rows {
        let row = Row::decode(place);
        if row.is_active(clock) && row.next_hop == neighbour {
            let row = row.broken();
            *place = row.encode();
            lost.push(entry(&row));
        }
    }
}

fn entry(row: &Row) -> [u8; NumberedAddress::OCTETS] {
    let lost = NumberedAddress {
        address: row.destination,
        number: row.number,
    };
    lost.encode()
}
