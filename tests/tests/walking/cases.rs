//! Walks worked out by hand, one rule of docs/PROTOCOL.md, 'Walk', after the other.

use hwmp_tests::answers::{ACCEPTED, NO_ROUTE, TOO_LONG};
use hwmp_tests::fence::{Fence, Side};
use hwmp_tests::library::Walked;
use hwmp_tests::stand_ins::both;
use hwmp_tests::worked::{Address, FREE, Row, STRANGER, address, table};

pub const CLOCK: u64 = 1000;
const EXPIRY: u64 = 6000;

/// Returns a row that is active until EXPIRY.
pub fn row(destination: Address, next_hop: Address) -> Row {
    Row {
        status: 1,
        known: 1,
        hop_count: 2,
        destination,
        next_hop,
        number: 7,
        metric: 30,
        expiry: EXPIRY,
    }
}

/// Returns the table of a point with these rows and latest clock CLOCK.
pub fn point(place: usize, rows: &[Row]) -> Vec<u8> {
    let mut octets = table(5, 7, CLOCK, rows);
    octets[..6].copy_from_slice(&address(place));
    octets
}

/// Returns the table of a point without a held row.
fn ignorant(place: usize) -> Vec<u8> {
    point(place, &[FREE])
}

/// Returns the table of a point whose one row leads to the destination through the next hop.
fn leading(place: usize, destination: Address, next_hop: Address) -> Vec<u8> {
    point(place, &[row(destination, next_hop)])
}

/// Returns points that each lead to the destination through the next one. The last point has the
/// row `last`.
fn line(count: usize, destination: Address, last: Row) -> Vec<Vec<u8>> {
    let next = |place| row(destination, address(place + 1));
    let rows = (0..count - 1).map(next).chain([last]);
    let points = rows.enumerate().map(|(place, row)| point(place, &[row]));
    points.collect()
}

/// Both implementations, on either side of a fence, must give this answer and these hops, and
/// change nothing.
pub fn gives(
    what: &str,
    tables: &[Vec<u8>],
    [start, destination]: [Address; 2],
    (answer, hops): (u32, u32),
) {
    gives_at(what, CLOCK, tables, [start, destination], (answer, hops));
}

fn gives_at(
    what: &str,
    clock: u64,
    tables: &[Vec<u8>],
    [start, destination]: [Address; 2],
    (answer, hops): (u32, u32),
) {
    let (fence, count) = (&mut Fence::build(), tables.len() as u32);
    let octets = tables.concat();
    for by in both() {
        for side in Side::BOTH {
            let lent = fence.lend(&octets, side);
            let walked = (by.walk)(lent, count, clock, &start, &destination);
            let name = by.name;
            assert_eq!(walked, Walked { answer, hops }, "{what}: {name}, {side:?}");
            assert!(lent == octets, "{what}: tables changed by {name}");
        }
    }
}

/// From the destination itself there are 0 hops.
#[test]
fn from_the_destination_itself_there_are_no_hops() {
    let [own, other] = [address(0), address(1)];
    gives("alone", &[ignorant(0)], [own, own], (ACCEPTED, 0));
    let both = [leading(0, other, other), leading(1, own, own)];
    gives("beside another", &both, [other, other], (ACCEPTED, 0));
}

/// The walk reached the destination (0), which may be one of the points or not.
#[test]
fn a_destination_is_met_at_the_end_of_a_line() {
    for count in 1..=16 {
        let last = address(count - 1);
        let known = line(count, last, FREE);
        gives(
            "a point",
            &known,
            [address(0), last],
            (ACCEPTED, count as u32 - 1),
        );
        let beyond = line(count, STRANGER, row(STRANGER, STRANGER));
        gives(
            "no point",
            &beyond,
            [address(0), STRANGER],
            (ACCEPTED, count as u32),
        );
        for start in 0..count {
            let hops = (count - start) as u32;
            gives(
                "on the way",
                &beyond,
                [address(start), STRANGER],
                (ACCEPTED, hops),
            );
        }
    }
}

/// The tables may stand in any order.
#[test]
fn the_order_of_the_tables_plays_no_part() {
    let mut tables = line(5, STRANGER, row(STRANGER, STRANGER));
    for _ in 0..5 {
        tables.rotate_left(1);
        gives("turned", &tables, [address(0), STRANGER], (ACCEPTED, 5));
        tables.reverse();
        gives("reversed", &tables, [address(1), STRANGER], (ACCEPTED, 4));
        tables.reverse();
    }
}

/// The walk stops at a point without an active row (41).
#[test]
fn without_a_row_there_is_no_way() {
    let destination = address(3);
    gives(
        "at the start",
        &[ignorant(0)],
        [address(0), STRANGER],
        (NO_ROUTE, 0),
    );
    let cut = [
        leading(0, destination, address(1)),
        leading(1, destination, address(2)),
        ignorant(2),
        ignorant(3),
    ];
    gives(
        "after two hops",
        &cut,
        [address(0), destination],
        (NO_ROUTE, 2),
    );
    gives("after one", &cut, [address(1), destination], (NO_ROUTE, 1));
    gives("at once", &cut, [address(2), destination], (NO_ROUTE, 0));
    for count in 1..=16 {
        let all = line(count, STRANGER, FREE);
        let hops = count as u32 - 1;
        gives("at the end", &all, [address(0), STRANGER], (NO_ROUTE, hops));
    }
}

/// Only a row for the destination is followed, not one for the next hop or for another address.
#[test]
fn only_rows_for_the_destination_are_followed() {
    let tables = [
        point(
            0,
            &[row(address(1), address(1)), row(address(2), address(1))],
        ),
        point(1, &[row(address(0), address(0)), row(STRANGER, address(2))]),
        point(2, &[row(STRANGER, STRANGER), FREE]),
    ];
    gives("none", &tables, [address(0), STRANGER], (NO_ROUTE, 0));
    gives("for it", &tables, [address(1), STRANGER], (ACCEPTED, 2));
    gives(
        "to a neighbour",
        &tables,
        [address(0), address(1)],
        (ACCEPTED, 1),
    );
    gives(
        "half the way",
        &tables,
        [address(0), address(2)],
        (NO_ROUTE, 1),
    );
}

/// The walk stops where the next hop is neither a point nor the destination (41). This last hop is
/// not counted.
#[test]
fn a_hop_out_of_the_mesh_is_not_counted() {
    let elsewhere = [2, 0, 0, 0, 1, 2];
    for count in 1..=16 {
        let tables = line(count, STRANGER, row(STRANGER, elsewhere));
        let hops = count as u32 - 1;
        gives("leaves", &tables, [address(0), STRANGER], (NO_ROUTE, hops));
    }
    for count in 1..16 {
        let destination = address(count);
        let mut tables = line(count, destination, row(destination, elsewhere));
        tables.push(ignorant(count));
        let (way, hops) = ([address(0), destination], count as u32 - 1);
        gives("leaves before a point", &tables, way, (NO_ROUTE, hops));
    }
}

/// A next hop that differs from a point in one bit is no point.
#[test]
fn a_next_hop_much_like_a_point_is_none() {
    for octet in 0..6 {
        for bit in 0..8 {
            let mut near = address(1);
            near[octet] ^= 1 << bit;
            let individual = near[0] & 1 == 0;
            if !individual || near == address(0) {
                continue;
            }
            let tables = [leading(0, STRANGER, near), leading(1, STRANGER, STRANGER)];
            gives("near", &tables, [address(0), STRANGER], (NO_ROUTE, 0));
            let tables = [leading(0, near, address(1)), leading(1, STRANGER, STRANGER)];
            gives("another", &tables, [address(0), STRANGER], (NO_ROUTE, 0));
        }
    }
}

/// The walk took as many hops as there are points, and did not reach the destination (42).
#[test]
fn in_a_ring_there_are_as_many_hops_as_points() {
    for count in 2..=16 {
        let hops = count as u32;
        let ring = line(count, STRANGER, row(STRANGER, address(0)));
        for start in 0..count {
            gives("ring", &ring, [address(start), STRANGER], (TOO_LONG, hops));
        }
        // The last two lead to each other, and the others lead to them.
        let into_a_ring = line(count, STRANGER, row(STRANGER, address(count - 2)));
        let way = [address(0), STRANGER];
        gives("line into a ring", &into_a_ring, way, (TOO_LONG, hops));
    }
    let beside = [
        leading(0, address(2), address(1)),
        leading(1, address(2), address(0)),
        ignorant(2),
    ];
    gives(
        "to a point",
        &beside,
        [address(0), address(2)],
        (TOO_LONG, 3),
    );
}

/// A row is followed if it is active at the clock: status 1, and the clock below its expiry.
#[test]
fn rows_count_while_they_are_active() {
    let way = [address(0), STRANGER];
    let second = |row: Row| [leading(0, STRANGER, address(1)), point(1, &[row])];
    let sound = row(STRANGER, STRANGER);
    gives("lasting", &second(sound), way, (ACCEPTED, 2));
    let invalidated = Row { status: 2, ..sound };
    gives("invalidated", &second(invalidated), way, (NO_ROUTE, 1));
    for (expiry, outcome) in [
        (CLOCK + 1, (ACCEPTED, 2)),
        (CLOCK, (NO_ROUTE, 1)),
        (CLOCK - 1, (NO_ROUTE, 1)),
        (0, (NO_ROUTE, 1)),
    ] {
        let expiring = Row { expiry, ..sound };
        gives("expiring", &second(expiring), way, outcome);
        let first = [point(0, &[expiring])];
        let hops = outcome.1 - 1;
        gives("expiring first", &first, way, (outcome.0, hops));
    }
    // The clock of the walk decides, not the latest clock of a table.
    for (clock, outcome) in [
        (CLOCK, (ACCEPTED, 2)),
        (EXPIRY - 1, (ACCEPTED, 2)),
        (EXPIRY, (NO_ROUTE, 0)),
    ] {
        gives_at("later", clock, &second(sound), way, outcome);
    }
    // A clock whose low 32 bits alone are below the expiry.
    gives_at("much later", 1 << 32, &second(sound), way, (NO_ROUTE, 0));
    let last = (1 << 48) - 1;
    let lasting = Row {
        expiry: 1 << 48,
        ..sound
    };
    gives_at(
        "last clock",
        last,
        &[point(0, &[lasting])],
        way,
        (ACCEPTED, 1),
    );
}

/// An active row is followed whether its number is known or not, and whatever its metric and hop
/// count.
#[test]
fn every_kind_of_active_row_is_followed() {
    let way = [address(0), address(1)];
    let sound = row(address(1), address(1));
    let rows = [
        sound.unknown(3),
        Row {
            metric: u32::MAX,
            hop_count: 255,
            ..sound
        },
        Row {
            metric: 1,
            hop_count: 0,
            number: u32::MAX,
            ..sound
        },
    ];
    for row in rows {
        gives(
            "any row",
            &[point(0, &[row]), ignorant(1)],
            way,
            (ACCEPTED, 1),
        );
    }
}

/// The row may stand in any place of any number of rows.
#[test]
fn a_row_is_found_in_every_place() {
    let among_others = |rows: usize, place: usize, row: Row| {
        let other = |place: usize| self::row([4, 0, 0, 0, 0, 1 + place as u8], STRANGER);
        let mut all: Vec<Row> = (0..rows).map(other).collect();
        all[place] = row;
        all
    };
    for rows in [1, 2, 16, 127, 128] {
        for place in [0, rows / 2, rows - 1] {
            let first = among_others(rows, place, row(STRANGER, address(1)));
            let second = among_others(rows, rows - 1 - place, row(STRANGER, STRANGER));
            let tables = [point(0, &first), point(1, &second)];
            gives(
                "one of many",
                &tables,
                [address(0), STRANGER],
                (ACCEPTED, 2),
            );
        }
    }
}
