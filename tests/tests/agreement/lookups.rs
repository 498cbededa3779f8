//! Fresh, forget and next hop.

use hwmp_tests::answers::{
    ACCEPTED, BAD_ADDRESS, CLOCK_TOO_LARGE, NO_NEXT_HOP, NOT_A_TABLE, NOT_HELD, OLD_CLOCK,
    TABLE_LENGTH,
};
use hwmp_tests::comparing::{Listed, Point, Run};
use hwmp_tests::random::Random;
use hwmp_tests::reference::table::MAX_ROWS;
use hwmp_tests::tables;

/// Tables drawn for each number of rows.
const TABLES_PER_LENGTH: usize = 950;

/// The answers that each call can give, and how often each answer must have occurred.
const LEAST: u64 = 5_000;
const ANSWERS: [Listed; 3] = [
    ("fresh", &[ACCEPTED, TABLE_LENGTH, BAD_ADDRESS]),
    (
        "forget",
        &[ACCEPTED, TABLE_LENGTH, BAD_ADDRESS, NOT_A_TABLE, NOT_HELD],
    ),
    (
        "next hop",
        &[
            ACCEPTED,
            TABLE_LENGTH,
            CLOCK_TOO_LARGE,
            BAD_ADDRESS,
            NOT_A_TABLE,
            OLD_CLOCK,
            NO_NEXT_HOP,
        ],
    ),
];

fn next_hop_or_forget(point: &mut Point, run: &mut Run) {
    let destination = tables::some_destination(point.table(), &mut run.random);
    if run.random.one_in(3) {
        point.forget(destination, run);
    } else {
        let clock = tables::some_clock(point.table(), &mut run.random);
        point.next_hop(clock, destination, run);
    }
}

fn own_address(random: &mut Random) -> [u8; 6] {
    if random.one_in(4) {
        tables::not_individual(random).0
    } else {
        tables::individual(random).0
    }
}

/// Makes some calls on one table, legal or not, then makes it fresh.
fn one_table(rows: usize, run: &mut Run) {
    let random = &mut run.random;
    let table = match random.below(12) {
        0 => tables::resized(rows, random),
        1 if random.one_in(4) => tables::junk(tables::length(rows), random),
        1..4 => tables::damaged(rows, random),
        _ => tables::legal(rows, random),
    };
    let mut point = Point::new(&table, random);
    for _ in 0..8 {
        next_hop_or_forget(&mut point, run);
    }
    let own = own_address(&mut run.random);
    let number = run.random.number() as u32;
    point.fresh(own, number, run);
    next_hop_or_forget(&mut point, run);
}

#[test]
fn library_and_reference_agree() {
    let run = &mut Run::announced("lookups", 0x0001_1778);
    for rows in 1..=MAX_ROWS {
        for _ in 0..TABLES_PER_LENGTH {
            one_table(rows, run);
        }
    }
    run.answers.report(&ANSWERS);
    run.answers.check(&ANSWERS, LEAST);
    println!("lookups compared: {}", run.answers.total());
    assert!(run.answers.total() >= 1_200_000);
}
