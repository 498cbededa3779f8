//! Ask, announce, root request and break.

use hwmp_tests::answers::{
    ABOUT_ITSELF, ACCEPTED, BAD_ADDRESS, BAD_COUNT, BAD_LIST, BAD_NEIGHBOUR, CLOCK_TOO_LARGE,
    FROM_ITSELF, NO_LIFETIME, NOT_A_TABLE, OLD_CLOCK, SHORT_OUTPUT, TABLE_LENGTH,
};
use hwmp_tests::comparing::{Listed, Point, Run, Tally};
use hwmp_tests::random::Random;
use hwmp_tests::reference::Address;
use hwmp_tests::reference::table::{MAX_ROWS, Table, VALID};
use hwmp_tests::tables;

const TABLES: usize = 200_000;
const CALLS_PER_TABLE: usize = 8;

/// The answers that each call can give, and how often each answer must have occurred.
const LEAST_ANSWERED: u64 = 5_000;
const ANSWERS: [Listed; 4] = [
    (
        "ask",
        &[
            ACCEPTED,
            TABLE_LENGTH,
            SHORT_OUTPUT,
            BAD_COUNT,
            BAD_ADDRESS,
            BAD_LIST,
            NO_LIFETIME,
            NOT_A_TABLE,
            ABOUT_ITSELF,
        ],
    ),
    (
        "announce",
        &[
            ACCEPTED,
            TABLE_LENGTH,
            SHORT_OUTPUT,
            BAD_LIST,
            NO_LIFETIME,
            NOT_A_TABLE,
        ],
    ),
    (
        "root request",
        &[
            ACCEPTED,
            TABLE_LENGTH,
            SHORT_OUTPUT,
            BAD_LIST,
            NO_LIFETIME,
            NOT_A_TABLE,
        ],
    ),
    (
        "break",
        &[
            ACCEPTED,
            TABLE_LENGTH,
            SHORT_OUTPUT,
            CLOCK_TOO_LARGE,
            BAD_NEIGHBOUR,
            NOT_A_TABLE,
            OLD_CLOCK,
            FROM_ITSELF,
        ],
    ),
];

/// What else accepted calls must have met. In a count of yes and no, 1 stands for yes.
const LEAST_SEEN: u64 = 500;
const SEEN: [Listed; 13] = [
    (ITEMS, &UP_TO_20),
    (ROW_OF_AN_ITEM, &[0, 1, 2, 3]),
    (NUMBER_OF_A_ROW, &[3, 4, 5, 6, 7, 8, 9, 10, 11]),
    (NUMBER_OF_ASK_PASSES, &[0, 1]),
    (ID_OF_ASK_PASSES, &[0, 1]),
    (NUMBER_OF_ANNOUNCE_PASSES, &[0, 1]),
    (NUMBER_OF_ROOT_PASSES, &[0, 1]),
    (ID_OF_ROOT_PASSES, &[0, 1]),
    (FRAMES, &[0, 1, 2, 3, 4, 5, 6]),
    (ROWS_LOST, &ROWS_LOST_COUNTED),
    (LATER, &[0, 1]),
    (LOST_KNOWN, &[0, 1]),
    (LOST_PASSES, &[0, 1]),
];
const UP_TO_20: [u32; 20] = [
    1, 2, 3, 4, 5, 6, 7, 8, 9, 10, 11, 12, 13, 14, 15, 16, 17, 18, 19, 20,
];
const ITEMS: &str = "items of an ask";
const ROW_OF_AN_ITEM: &str = "row of an item none 0, valid 1, invalidated 2, expired 3";
const NUMBER_OF_A_ROW: &str =
    "number of a row of an item unknown 0, known 0 as 1, another 2; plus 3 for each sort of row";
const NUMBER_OF_ASK_PASSES: &str = "own number of an ask passes to 0";
const ID_OF_ASK_PASSES: &str = "request ID of an ask passes to 0";
const NUMBER_OF_ANNOUNCE_PASSES: &str = "own number of an announcement passes to 0";
const NUMBER_OF_ROOT_PASSES: &str = "own number of a root request passes to 0";
const ID_OF_ROOT_PASSES: &str = "request ID of a root request passes to 0";
const FRAMES: &str = "frames of a break";
const ROWS_LOST: &str = "rows lost by a break";
/// None, one, all, and the counts at which one more RERR is needed.
const ROWS_LOST_COUNTED: [u32; 8] = [0, 1, 25, 26, 50, 51, 127, 128];
const LATER: &str = "clock of a break later than the latest";
const LOST_KNOWN: &str = "number of a lost row known";
const LOST_PASSES: &str = "number of a lost row passes to 0";

/// Returns any number of rows, and more often one at which one more RERR is needed.
fn some_rows(random: &mut Random) -> usize {
    let near_full_error = 25 * (1 + random.below(5)) + random.below(2);
    match random.below(8) {
        0..4 => near_full_error,
        4..6 => MAX_ROWS - random.below(3),
        _ => 1 + random.below(MAX_ROWS),
    }
}

fn some_table(random: &mut Random) -> Vec<u8> {
    let rows = some_rows(random);
    match random.below(16) {
        0 => tables::resized(rows, random),
        1 if random.one_in(4) => tables::junk(tables::length(rows), random),
        1..4 => tables::damaged(rows, random),
        4..9 => tables::leaning(rows, random),
        _ => tables::legal(rows, random),
    }
}

fn ask(point: &mut Point, run: &mut Run, seen: &mut Tally) {
    let lifetime = tables::some_lifetime(&mut run.random);
    let items = tables::some_items(point.table(), &mut run.random);
    if point.ask(lifetime, &items, run).answer == ACCEPTED {
        see_items(point.before(), &items, seen);
        seen.count(NUMBER_OF_ASK_PASSES, number_passes(point.before()));
        seen.count(ID_OF_ASK_PASSES, request_id_passes(point.before()));
    }
}

fn see_items(table: &[u8], items: &[u8], seen: &mut Tally) {
    let table = Table::cut(table).expect("it was accepted");
    let (items, _) = items.as_chunks::<7>();
    seen.count(ITEMS, items.len() as u32);
    for &[_, a, b, c, d, e, f] in items {
        let Some((_, row)) = table.row_for(Address([a, b, c, d, e, f])) else {
            seen.count(ROW_OF_AN_ITEM, 0);
            continue;
        };
        let expired = row.status == VALID && row.expiry <= table.head().latest_clock;
        let sort = if expired { 3 } else { row.status.into() };
        seen.count(ROW_OF_AN_ITEM, sort);
        let number = match (row.has_known_number(), row.number.0) {
            (false, _) => 0,
            (true, 0) => 1,
            _ => 2,
        };
        seen.count(NUMBER_OF_A_ROW, number + 3 * sort);
    }
}

/// Reports whether the next step takes the own number of the table to 0.
fn number_passes(table: &[u8]) -> u32 {
    (table[8..12] == [0xFF; 4]).into()
}

fn request_id_passes(table: &[u8]) -> u32 {
    (table[12..16] == [0xFF; 4]).into()
}

fn announce(point: &mut Point, run: &mut Run, seen: &mut Tally) {
    let flags = tables::some_flags(&mut run.random);
    let lifetime = tables::some_lifetime(&mut run.random);
    if point.announce(flags, lifetime, run).answer == ACCEPTED {
        seen.count(NUMBER_OF_ANNOUNCE_PASSES, number_passes(point.before()));
    }
}

fn root_request(point: &mut Point, run: &mut Run, seen: &mut Tally) {
    let flags = tables::some_flags(&mut run.random);
    let lifetime = tables::some_lifetime(&mut run.random);
    if point.root_request(flags, lifetime, run).answer == ACCEPTED {
        seen.count(NUMBER_OF_ROOT_PASSES, number_passes(point.before()));
        seen.count(ID_OF_ROOT_PASSES, request_id_passes(point.before()));
    }
}

fn report_break(point: &mut Point, run: &mut Run, seen: &mut Tally) {
    let neighbour = tables::some_neighbour(point.table(), &mut run.random);
    let clock = tables::some_clock(point.table(), &mut run.random);
    let outcome = point.report_break(clock, neighbour, run);
    if outcome.answer == ACCEPTED {
        seen.count(FRAMES, outcome.frames);
        see_break(point.before(), point.table(), seen);
    }
}

fn see_break(before: &[u8], after: &[u8], seen: &mut Tally) {
    let [before, after] = [before, after].map(|octets| Table::cut(octets).expect("accepted"));
    let later = after.head().latest_clock > before.head().latest_clock;
    seen.count(LATER, later.into());
    let mut lost = 0;
    for (before, after) in before.rows().zip(after.rows()) {
        if before.status != after.status {
            lost += 1;
            seen.count(LOST_KNOWN, before.number_known.into());
            let passes = before.number.0 == u32::MAX;
            seen.count(LOST_PASSES, passes.into());
        }
    }
    if ROWS_LOST_COUNTED.contains(&lost) {
        seen.count(ROWS_LOST, lost);
    }
}

fn one_call(point: &mut Point, run: &mut Run, seen: &mut Tally) {
    match run.random.below(8) {
        0..3 => ask(point, run, seen),
        3 => announce(point, run, seen),
        4 => root_request(point, run, seen),
        _ => report_break(point, run, seen),
    }
}

#[test]
fn library_and_reference_agree() {
    let run = &mut Run::announced("emitting", 0x0126_1778);
    let seen = &mut Tally::default();
    for _ in 0..TABLES {
        let table = some_table(&mut run.random);
        let mut point = Point::new(&table, &mut run.random);
        for _ in 0..CALLS_PER_TABLE {
            one_call(&mut point, run, seen);
        }
    }
    run.answers.report(&ANSWERS);
    seen.report(&SEEN);
    run.answers.check(&ANSWERS, LEAST_ANSWERED);
    seen.check(&SEEN, LEAST_SEEN);
    println!("emitting calls compared: {}", run.answers.total());
    assert_eq!(run.answers.total(), (TABLES * CALLS_PER_TABLE) as u64);
}
