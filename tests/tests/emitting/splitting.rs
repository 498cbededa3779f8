//! How many RERRs a break needs for the rows that it loses.

use hwmp_tests::worked::{Address, FREE, Row, accepted, rerr, table};

use crate::breaking::{BROKEN, OTHER, broken, destination, report_break, through};

/// How many rows are lost; N of each RERR; the total of octets, which is 6 + 2 + 2 + 10N for each
/// RERR.
const SPLITS: [(usize, &[usize], usize); 13] = [
    (0, &[], 0),
    (1, &[1], 20),
    (24, &[24], 250),
    (25, &[25], 260),
    (26, &[25, 1], 280),
    (50, &[25, 25], 520),
    (51, &[25, 25, 1], 540),
    (75, &[25, 25, 25], 780),
    (100, &[25, 25, 25, 25], 1040),
    (125, &[25, 25, 25, 25, 25], 1300),
    (126, &[25, 25, 25, 25, 25, 1], 1320),
    (127, &[25, 25, 25, 25, 25, 2], 1330),
    (128, &[25, 25, 25, 25, 25, 3], 1340),
];

/// Of 128 rows, `count` are lost: the first, the last, or some all over the table.
#[test]
fn twenty_five_rows_go_in_one_error() {
    for (count, ns, octets) in SPLITS {
        let is_lost: [Box<dyn Fn(usize) -> bool>; 3] = [
            Box::new(move |place| place < count),
            Box::new(move |place| place >= 128 - count),
            // 59 is prime to 128, so this passes through all places.
            Box::new(move |place| place * 59 % 128 < count),
        ];
        for is_lost in is_lost {
            split(count, ns, octets, is_lost.as_ref());
        }
    }
    println!(
        "break: {} counts of rows lost, up to 128 in 1,340 octets",
        SPLITS.len()
    );
}

fn split(count: usize, ns: &[usize], octets: usize, is_lost: &dyn Fn(usize) -> bool) {
    let (mut before, mut after, mut lost) = (Vec::new(), Vec::new(), Vec::new());
    for place in 0..128 {
        if is_lost(place) {
            let (row, next) = (numbered(place), 1001 + place as u32);
            before.push(row);
            after.push(broken(row, next));
            lost.push((destination(place), next));
        } else {
            before.push(not_lost(place));
            after.push(not_lost(place));
        }
    }
    let what = format!("{count} rows lost");
    assert_eq!(lost.len(), count, "{what}: the case loses others");
    let frames = errors(&lost, ns);
    assert_eq!(frames.concat().len(), octets, "{what}");
    let (before, after) = (table(5, 7, 1000, &before), table(5, 7, 5000, &after));
    accepted(&what, &before, &report_break(5000, BROKEN), &after, &frames);
}

/// Returns the RERRs for the rows lost, with N as the table above says.
fn errors(mut lost: &[(Address, u32)], ns: &[usize]) -> Vec<Vec<u8>> {
    let mut frames = Vec::new();
    for &n in ns {
        let (these, others) = lost.split_at(n);
        frames.push(rerr(these));
        lost = others;
    }
    frames
}

fn numbered(place: usize) -> Row {
    Row {
        number: 1000 + place as u32,
        ..through(BROKEN, place)
    }
}

/// Returns a row that stays, for one of four reasons in turn.
fn not_lost(place: usize) -> Row {
    match place % 4 {
        0 => FREE,
        1 => through(OTHER, place),
        2 => Row {
            status: 2,
            ..through(BROKEN, place)
        },
        _ => Row {
            expiry: 5000,
            ..through(BROKEN, place)
        },
    }
}
