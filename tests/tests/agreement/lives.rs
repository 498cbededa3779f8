//! Tables with a history: each is made fresh over junk and filled up to some row. Then learning and
//! all calls follow in any order, each on what the calls before it left.

use hwmp_tests::answers::{
    ABOUT_ITSELF, ACCEPTED, BAD_ADDRESS, BAD_COUNT, BAD_LIST, BAD_NEIGHBOUR, CLOCK_TOO_LARGE,
    FROM_ITSELF, NO_LIFETIME, NO_NEXT_HOP, NOT_HELD, OLD_CLOCK, SHORT_OUTPUT,
};
use hwmp_tests::comparing::{Listed, Point, Run, Tally};
use hwmp_tests::reference::Address;
use hwmp_tests::reference::table::{HEAD_OCTETS, MAX_ROWS, ROW_OCTETS, write_row};
use hwmp_tests::tables;

const LIVES_PER_LENGTH: usize = 60;
const STEPS: usize = 60;

/// What the calls can answer on octets that stay a table, and how often each answer must have
/// occurred.
const LEAST: u64 = 1_000;
const ANSWERS: [Listed; 7] = [
    ("fresh", &[ACCEPTED]),
    ("forget", &[ACCEPTED, NOT_HELD]),
    (
        "next hop",
        &[ACCEPTED, CLOCK_TOO_LARGE, OLD_CLOCK, NO_NEXT_HOP],
    ),
    (
        "ask",
        &[
            ACCEPTED,
            SHORT_OUTPUT,
            BAD_COUNT,
            BAD_ADDRESS,
            BAD_LIST,
            NO_LIFETIME,
            ABOUT_ITSELF,
        ],
    ),
    ("announce", &[ACCEPTED, SHORT_OUTPUT, BAD_LIST, NO_LIFETIME]),
    (
        "root request",
        &[ACCEPTED, SHORT_OUTPUT, BAD_LIST, NO_LIFETIME],
    ),
    (
        "break",
        &[
            ACCEPTED,
            SHORT_OUTPUT,
            CLOCK_TOO_LARGE,
            BAD_NEIGHBOUR,
            OLD_CLOCK,
            FROM_ITSELF,
        ],
    ),
];

/// How often breaks with no frame, with one and with several must have occurred.
const LEAST_SEEN: u64 = 200;
const SEEN: [Listed; 1] = [(FRAMES, &[0, 1, SEVERAL])];
const FRAMES: &str = "frames of a break, 2 or more as 2";
const SEVERAL: u32 = 2;

const OWN: Address = Address([2, 0, 0, 0, 0, 0]);

/// There are a few more destinations than rows. The table can fill up, and is still asked for
/// destinations without a row. The own address is among them.
fn some_destination(rows: usize, run: &mut Run) -> Address {
    Address([2, 0, 0, 0, 0, run.random.below(rows + 8) as u8])
}

/// There are few neighbours, and one of them comes far more often than the others, so that its
/// break loses many rows.
fn some_next_hop(run: &mut Run) -> Address {
    let neighbour = run.random.pick(&[1, 1, 1, 1, 1, 1, 2, 3]);
    Address([2, 0, 0, 0, 0, neighbour])
}

/// Writes a row into a free place of both tables, as receiving does.
fn learn(point: &mut Point, destination: Address, next_hop: Address, run: &mut Run) {
    let (rows, _) = point.table()[HEAD_OCTETS..].as_chunks::<ROW_OCTETS>();
    let known = rows.iter().any(|row| row[4..10] == destination.0);
    let free = rows.iter().position(|row| row[0] == 0);
    if let (false, Some(place)) = (known, free) {
        let row = tables::held_row(destination, next_hop, &mut run.random);
        point.change(|table| write_row(table, place, &row));
    }
}

/// Learns as many destinations as there are rows, or fewer.
fn fill(point: &mut Point, rows: usize, run: &mut Run) {
    let fewer = run.random.below(rows);
    for place in 0..run.random.pick(&[rows, rows, fewer]) {
        let destination = Address([2, 0, 0, 0, 0, 1 + place as u8]);
        let next_hop = some_next_hop(run);
        learn(point, destination, next_hop, run);
    }
}

fn report_break(point: &mut Point, clock: u64, run: &mut Run, seen: &mut Tally) {
    let neighbour = tables::some_neighbour(point.table(), &mut run.random);
    let outcome = point.report_break(clock, neighbour, run);
    if outcome.answer == ACCEPTED {
        seen.count(FRAMES, outcome.frames.min(SEVERAL));
    }
}

fn one_step(point: &mut Point, rows: usize, run: &mut Run, seen: &mut Tally) {
    let destination = some_destination(rows, run);
    let next_hop = some_next_hop(run);
    let random = &mut run.random;
    let clock = tables::some_clock(point.table(), random);
    let (flags, lifetime) = (tables::some_flags(random), tables::some_lifetime(random));
    match random.below(12) {
        0..5 if destination != OWN => learn(point, destination, next_hop, run),
        5 => point.forget(destination.0, run),
        6 => {
            point.announce(flags, lifetime, run);
        }
        7 => {
            point.root_request(flags, lifetime, run);
        }
        8 => {
            let items = tables::some_items(point.table(), random);
            point.ask(lifetime, &items, run);
        }
        9 => report_break(point, clock, run, seen),
        _ => point.next_hop(clock, destination.0, run),
    }
}

fn live(rows: usize, run: &mut Run, seen: &mut Tally) {
    let junk = tables::junk(tables::length(rows), &mut run.random);
    let mut point = Point::new(&junk, &mut run.random);
    let number = tables::boundary32(&mut run.random);
    point.fresh(OWN.0, number, run);
    fill(&mut point, rows, run);
    for _ in 0..STEPS {
        one_step(&mut point, rows, run, seen);
    }
}

#[test]
fn library_and_reference_agree() {
    let run = &mut Run::announced("lives", 0x0131_1778);
    let seen = &mut Tally::default();
    for rows in 1..=MAX_ROWS {
        for _ in 0..LIVES_PER_LENGTH {
            live(rows, run, seen);
        }
    }
    run.answers.report(&ANSWERS);
    seen.report(&SEEN);
    run.answers.check(&ANSWERS, LEAST);
    seen.check(&SEEN, LEAST_SEEN);
    println!("calls compared in lives: {}", run.answers.total());
}
