//! Single calls on legal and damaged tables, with elements that suit them, damaged elements and
//! random octets.

use hwmp_tests::answers::{
    ABOUT_ITSELF, ACCEPTED, BAD_ADDRESS, BAD_COUNT, BAD_LIST, BAD_NEIGHBOUR, CLOCK_TOO_LARGE,
    ELEMENT_LENGTH, FROM_ITSELF, LOW_TTL, METRIC_TOO_LARGE, NO_LIFETIME, NO_LINK, NO_MATCH,
    NO_ROOM, NOT_A_TABLE, OLD_CLOCK, SHORT_OUTPUT, STALE, TABLE_LENGTH, TOO_MANY_HOPS, UNKNOWN_ID,
};
use hwmp_tests::comparing::{Listed, Point, Run, Tally};
use hwmp_tests::elements;
use hwmp_tests::implementation::REFERENCE;
use hwmp_tests::random::Random;
use hwmp_tests::received::{self, Received};
use hwmp_tests::reference::element::{Destination, Element};
use hwmp_tests::reference::table::MAX_ROWS;
use hwmp_tests::reference::{Address, LEAST_OUTPUT};
use hwmp_tests::tables;

const TABLES: usize = 300_000;
const CALLS_PER_TABLE: usize = 8;

/// Every answer that receive can give, and how often each answer must have occurred.
const LEAST: u64 = 2_000;
const ANSWERS: [Listed; 1] = [(
    "receive",
    &[
        ACCEPTED,
        TABLE_LENGTH,
        SHORT_OUTPUT,
        CLOCK_TOO_LARGE,
        BAD_NEIGHBOUR,
        NO_LINK,
        ELEMENT_LENGTH,
        UNKNOWN_ID,
        BAD_COUNT,
        BAD_ADDRESS,
        BAD_LIST,
        NO_LIFETIME,
        TOO_MANY_HOPS,
        METRIC_TOO_LARGE,
        LOW_TTL,
        NOT_A_TABLE,
        OLD_CLOCK,
        FROM_ITSELF,
        ABOUT_ITSELF,
        STALE,
        NO_MATCH,
        NO_ROOM,
    ],
)];
const SEEN: [Listed; 2] = [
    (ACCEPTED_BY_ID, &[126, 130, 131, 132]),
    (MARKED_NUMBER, &[0, 1, 2, 3]),
];
const ACCEPTED_BY_ID: &str = "accepted by ID";
const MARKED_NUMBER: &str = "refused with 10 for a marked number alone: own address 0, all ones 1, another first 2, later 3";

fn some_table(random: &mut Random) -> Vec<u8> {
    let most = random.pick(&[4, 16, 40, MAX_ROWS]);
    let rows = 1 + random.below(most);
    match random.below(16) {
        0 => tables::resized(rows, random),
        1 if random.one_in(4) => tables::junk(tables::length(rows), random),
        1 | 2 => tables::damaged(rows, random),
        3..7 => tables::leaning(rows, random),
        _ => tables::legal(rows, random),
    }
}

/// Counts an element that was refused with 10 only because it has a marked number other than 0.
fn see_marked_number(point: &Point, received: &Received, seen: &mut Tally) {
    let Ok(Element::Rreq(rreq)) = Element::read(&received.element) else {
        return;
    };
    let marked = rreq
        .destinations()
        .position(Destination::contradicts_its_mark);
    if let Some(place) = marked
        && !is_bad_list(point.table(), &without_mark(received, place))
    {
        let address = rreq.destinations().nth(place).map(|asked| asked.address);
        let own = Address(*point.table().first_chunk().expect("a table's length"));
        let sort = match (address, place) {
            (Some(address), _) if address == own => 0,
            (Some(Address::ALL_ONES), _) => 1,
            (_, 0) => 2,
            _ => 3,
        };
        seen.count(MARKED_NUMBER, sort);
    }
}

/// Returns what was received, with the mark of one destination taken away.
fn without_mark(received: &Received, place: usize) -> Received {
    let mut received = received.clone();
    let flags = elements::listed_places(&received.element)[place] - 1;
    received.element[flags] &= !Destination::NUMBER_UNKNOWN;
    received
}

fn is_bad_list(table: &[u8], received: &Received) -> bool {
    let (table, output) = (&mut table.to_vec(), &mut [0; LEAST_OUTPUT]);
    let Received {
        clock,
        transmitter,
        link_metric,
        element,
    } = received;
    let outcome = (REFERENCE.receive)(table, output, *clock, transmitter, *link_metric, element);
    outcome.answer == BAD_LIST
}

#[test]
pub fn library_and_reference_agree() {
    let run = &mut Run::announced("receiving anything", 0x0021_1778);
    let seen = &mut Tally::default();
    for _ in 0..TABLES {
        let table = some_table(&mut run.random);
        let mut point = Point::new(&table, &mut run.random);
        for _ in 0..CALLS_PER_TABLE {
            let random = &mut run.random;
            let received = if random.one_in(3) {
                received::suited(point.table(), random)
            } else {
                received::faulty(point.table(), random)
            };
            match point.receive(&received, run).answer {
                ACCEPTED => seen.count(ACCEPTED_BY_ID, received.element[0].into()),
                BAD_LIST => see_marked_number(&point, &received, seen),
                _ => {}
            }
        }
    }
    run.answers.report(&ANSWERS);
    seen.report(&SEEN);
    run.answers.check(&ANSWERS, LEAST);
    seen.check(&SEEN, LEAST);
    assert_eq!(run.answers.total(), (TABLES * CALLS_PER_TABLE) as u64);
}
