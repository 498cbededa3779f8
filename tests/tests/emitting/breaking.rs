//! Reports of a broken neighbour.

use hwmp_tests::implementation::Implementation;
use hwmp_tests::library::Outcome;
use hwmp_tests::worked::{Address, FREE, Row, STEPS, accepted, rerr, rreq, table};

/// The neighbour that breaks, and another one.
pub const BROKEN: Address = [0x0A, 0, 0, 0, 0, 1];
pub const OTHER: Address = [0x0A, 0, 0, 0, 0, 2];

pub fn destination(place: usize) -> Address {
    [0x10, 0, 0, 0, 0, place as u8]
}

/// Returns a valid row through the neighbour, of known number 9.
pub fn through(neighbour: Address, place: usize) -> Row {
    Row {
        status: 1,
        known: 1,
        hop_count: 3,
        destination: destination(place),
        next_hop: neighbour,
        number: 9,
        metric: 30,
        expiry: 6000,
    }
}

/// Returns the neighbour's own row, of unknown number.
fn to_neighbour(metric: u32) -> Row {
    let row = Row {
        destination: BROKEN,
        ..through(BROKEN, 1)
    };
    row.unknown(metric)
}

/// Returns what a break makes of a row of known number.
pub fn broken(row: Row, number: u32) -> Row {
    Row {
        status: 2,
        number,
        metric: 0xFFFF_FFFF,
        ..row
    }
}

pub fn report_break(
    clock: u64,
    neighbour: Address,
) -> impl Fn(&Implementation, &mut [u8], &mut [u8]) -> Outcome {
    move |by, table, output| (by.report_break)(table, output, clock, &neighbour)
}

/// Reports BROKEN at clock 5000. Every row here expires later, unless it says otherwise.
fn breaks(what: &str, before: &[Row], after: &[Row], lost: &[(Address, u32)]) {
    let (before, after) = (table(5, 7, 1000, before), table(5, 7, 5000, after));
    let frames = match lost {
        [] => vec![],
        _ => vec![rerr(lost)],
    };
    accepted(what, &before, &report_break(5000, BROKEN), &after, &frames);
}

/// Returns rows that are lost, among them one whose number wraps and one of unknown number, and
/// rows that stay, each for another reason. Their order is not that of their addresses.
fn eight_rows() -> [Row; 8] {
    let goes_round = Row {
        number: 0xFFFF_FFFF,
        ..through(BROKEN, 4)
    };
    let expired = Row {
        expiry: 5000,
        ..through(BROKEN, 3)
    };
    let invalidated = Row {
        status: 2,
        ..through(BROKEN, 6)
    };
    [
        through(BROKEN, 7),
        FREE,
        through(OTHER, 2),
        to_neighbour(70),
        expired,
        goes_round,
        invalidated,
        through(BROKEN, 1),
    ]
}

fn eight_rows_after() -> [Row; 8] {
    let [
        first,
        free,
        other,
        neighbour,
        expired,
        goes_round,
        invalidated,
        last,
    ] = eight_rows();
    [
        broken(first, 10),
        free,
        other,
        Row {
            status: 2,
            ..neighbour
        },
        expired,
        broken(goes_round, 0),
        invalidated,
        broken(last, 10),
    ]
}

#[test]
fn a_break_octet_by_octet() {
    let frame = [
        0xFF, 0xFF, 0xFF, 0xFF, 0xFF, 0xFF, // receiver
        132, 42, // ID, Length
        0, 4, // flags, N
        0x10, 0, 0, 0, 0, 7, 10, 0, 0, 0, // destination, number
        0x0A, 0, 0, 0, 0, 1, 0, 0, 0, 0, // the neighbour, whose number is unknown
        0x10, 0, 0, 0, 0, 4, 0, 0, 0, 0, // the number that goes round
        0x10, 0, 0, 0, 0, 1, 10, 0, 0, 0,
    ];
    let before = table(0x0102_0304, 0x1112_1314, 0x1234, &eight_rows());
    let after = table(0x0102_0304, 0x1112_1314, 5000, &eight_rows_after());
    let call = report_break(5000, BROKEN);
    accepted("eight rows", &before, &call, &after, &[frame.to_vec()]);
    println!("break: four of eight rows lost, in a frame of 50 octets");
}

#[test]
fn p6_a_number_goes_round() {
    let row = Row {
        number: 4_294_967_295,
        metric: 30,
        ..through(BROKEN, 1)
    };
    let after = Row {
        status: 2,
        number: 0,
        metric: 4_294_967_295,
        ..row
    };
    breaks("P6", &[row], &[after], &[(destination(1), 0)]);
    println!("break: number 4,294,967,295 and metric 30 become 0 and 4,294,967,295");
}

#[test]
fn a_known_number_is_stepped() {
    for (number, next) in STEPS {
        for metric in [1, 30, 0xFFFF_FFFF] {
            let row = Row {
                number,
                metric,
                ..through(BROKEN, 1)
            };
            let what = format!("number {number}, metric {metric}");
            breaks(
                &what,
                &[row],
                &[broken(row, next)],
                &[(destination(1), next)],
            );
        }
    }
    println!("break: numbers stepped, also past 4,294,967,295");
}

/// The metric of a row of unknown number stays, and the RERR names the row's destination with
/// number 0.
#[test]
fn an_unknown_number_stays_unknown() {
    for metric in [1, 30, 0xFFFF_FFFF] {
        let row = to_neighbour(metric);
        let after = Row { status: 2, ..row };
        breaks(
            &format!("metric {metric}"),
            &[row],
            &[after],
            &[(BROKEN, 0)],
        );
    }
    println!("break: a row of unknown number is invalidated, its metric stays");
}

/// At clock 5000 a row with expiry 5000 is no longer active.
#[test]
fn only_active_rows_are_lost() {
    let edges = [
        (1, 5000, false),
        (1, 5001, true),
        (1, 0, false),
        (1, 4999, false),
        (1, (1 << 48) + (1 << 32), true),
        // The low 32 bits alone would give the opposite.
        (1, 1 << 32, true),
        (1, (1 << 32) + 1, true),
        (2, 6000, false),
        (2, 5000, false),
    ];
    for (status, expiry, lost) in edges {
        for row in [through(BROKEN, 1), to_neighbour(30)] {
            let row = Row {
                status,
                expiry,
                ..row
            };
            let what = format!("status {status}, expiry {expiry}, known {}", row.known);
            let after = match (lost, row.known) {
                (true, 1) => broken(row, 10),
                (true, _) => Row { status: 2, ..row },
                _ => row,
            };
            let entry = (after.destination, after.number);
            let entries = if lost { vec![entry] } else { vec![] };
            breaks(&what, &[row], &[after], &entries);
        }
    }
    println!("break: {} edges of active rows", 2 * edges.len());
}

/// A row for the neighbour through another one stays. A row through an address that is nearly the
/// neighbour's stays too.
#[test]
fn only_rows_through_the_neighbour_are_lost() {
    let for_it = Row {
        destination: BROKEN,
        ..through(OTHER, 1)
    };
    breaks("for the neighbour", &[for_it], &[for_it], &[]);
    for octet in 0..6 {
        let mut nearly = BROKEN;
        nearly[octet] ^= 0x40;
        let rows = [through(nearly, 1), through(BROKEN, 2)];
        let after = [rows[0], broken(rows[1], 10)];
        let what = format!("octet {octet} differs");
        breaks(&what, &rows, &after, &[(destination(2), 10)]);
    }
    println!("break: the next hop decides, all six octets of it");
}

/// A second break finds no active row, and an ask after it carries the stepped number.
#[test]
fn what_a_break_leaves() {
    let once = [broken(through(BROKEN, 1), 10), through(OTHER, 2)];
    breaks("broken again", &once, &once, &[]);
    let items = [&[1][..], &destination(1)].concat();
    let (before, after) = (table(5, 7, 5000, &once), table(6, 8, 5000, &once));
    let frame = rreq(0, 8, 6, 1000, &[(1, destination(1), 10)]);
    accepted(
        "asked after a break",
        &before,
        &|by: &Implementation, table: &mut [u8], output: &mut [u8]| {
            (by.ask)(table, output, 1000, &items)
        },
        &after,
        &[frame],
    );
    println!("break: again nothing, and then an ask with the stepped number");
}
