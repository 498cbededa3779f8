//! The clock that a break brings and stores, and the neighbours that it may name.

use hwmp_tests::answers::{BAD_NEIGHBOUR, CLOCK_TOO_LARGE, FROM_ITSELF, OLD_CLOCK};
use hwmp_tests::worked::{
    ALL_ONES, FREE, GROUP, LAST_CLOCK, OWN, Row, ZERO, accepted, refused_with_room, rerr, table,
};

use crate::breaking::{BROKEN, OTHER, broken, destination, report_break, through};

/// The clock is stored even if no row is lost and there is no frame.
#[test]
fn the_clock_is_stored() {
    // Latest clock and clock.
    let clocks = [
        (0, 0),
        (0, 1),
        (1000, 1000),
        (1000, 1001),
        (0xFFFF_FFFF, 0x1_0000_0000),
        (0, 0xA1B2_C3D4_E5F6),
        (LAST_CLOCK - 1, LAST_CLOCK),
        (LAST_CLOCK, LAST_CLOCK),
        (0, LAST_CLOCK),
    ];
    let kept = through(OTHER, 1);
    let lost = Row {
        expiry: (1 << 48) + (1 << 32),
        ..through(BROKEN, 2)
    };
    for (latest, clock) in clocks {
        let what = format!("clock {clock} after {latest}");
        let call = report_break(clock, BROKEN);
        let (before, after) = (table(5, 7, latest, &[kept]), table(5, 7, clock, &[kept]));
        accepted(&what, &before, &call, &after, &[]);
        let before = table(5, 7, latest, &[kept, lost]);
        let after = table(5, 7, clock, &[kept, broken(lost, 10)]);
        accepted(
            &what,
            &before,
            &call,
            &after,
            &[rerr(&[(destination(2), 10)])],
        );
    }
    println!(
        "break: {} clocks stored, with and without a row lost",
        clocks.len()
    );
}

#[test]
fn clocks_and_neighbours_that_are_refused() {
    // Latest clock, clock and neighbour; answer.
    let edges = [
        (1000, 999, BROKEN, OLD_CLOCK),
        (LAST_CLOCK, LAST_CLOCK - 1, BROKEN, OLD_CLOCK),
        (1 << 32, (1 << 32) - 1, BROKEN, OLD_CLOCK),
        (1 << 40, 1 << 39, BROKEN, OLD_CLOCK),
        ((1 << 32) + 1, 2, BROKEN, OLD_CLOCK),
        (0, LAST_CLOCK + 1, BROKEN, CLOCK_TOO_LARGE),
        (0, 1 << 63, BROKEN, CLOCK_TOO_LARGE),
        (0, u64::MAX, BROKEN, CLOCK_TOO_LARGE),
        (0, 1000, GROUP, BAD_NEIGHBOUR),
        (0, 1000, ZERO, BAD_NEIGHBOUR),
        (0, 1000, ALL_ONES, BAD_NEIGHBOUR),
        (0, 1000, [1, 0, 0, 0, 0, 0], BAD_NEIGHBOUR),
        (0, 1000, OWN, FROM_ITSELF),
    ];
    for (latest, clock, neighbour, answer) in edges {
        let before = table(5, 7, latest, &[through(BROKEN, 1), FREE]);
        let what = format!("clock {clock} after {latest}, {neighbour:?}");
        refused_with_room(&what, &before, &report_break(clock, neighbour), answer);
    }
    println!("break: {} refused edges", edges.len());
}
