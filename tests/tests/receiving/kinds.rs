//! Elements of every type on legal tables: requests whose destinations have rows of all sorts,
//! replies with any number of dependents, errors with any number of matches.

use hwmp_tests::answers::ACCEPTED;
use hwmp_tests::comparing::{Listed, Point, Run, Tally, frames};
use hwmp_tests::random::Random;
use hwmp_tests::received::{self, Received};
use hwmp_tests::reference::element::{Destination, Element, Rerr, Rrep, Rreq};
use hwmp_tests::reference::table::{MAX_ROWS, Row, Table, VALID};
use hwmp_tests::reference::{Address, SequenceNumber};
use hwmp_tests::tables;

const TABLES: usize = 300_000;
const CALLS_PER_TABLE: usize = 6;

/// What accepted elements must have met, and how often. In a count of yes and no, 1 stands for yes.
const LEAST: u64 = 20;
const SEEN: [Listed; 15] = [
    (END, &[0, 1, 2, 3, 4]),
    (STORED_EXPIRY_LARGER, &[0, 1]),
    (TRANSMITTER, &[0, 1, 2, 3, 4]),
    (ACTIVE_LINK, &BELOW_AT_ABOVE),
    (INACTIVE_LINK, &BELOW_AT_ABOVE),
    (TTL, &[0, 1, 2, 3, 31, 255]),
    (DESTINATION, &range::<0, 21>()),
    (OWN_ASKED_FOR, &range::<0, 12>()),
    (ACTIVE_ASKED_FOR, &range::<0, 48>()),
    (REPLIES, &range::<0, 21>()),
    (UNICAST_GOES_ON, &[0, 1]),
    (DEPENDENTS, &range::<0, 23>()),
    (SOURCE, &[0, 1, 2]),
    (NAMED, &range::<1, 25>()),
    (MATCHES, &range::<1, 25>()),
];
const END: &str = "row of the path's end, by its sort";
const STORED_EXPIRY_LARGER: &str = "stored expiry of an active end larger";
const TRANSMITTER: &str = "row of another transmitter, by its sort";
const ACTIVE_LINK: &str = "link below 0, at 1, above 2 the metric of an active transmitter";
const INACTIVE_LINK: &str = "the same of an inactive one of known number";
const TTL: &str = "TTL of a RREQ or RANN";
const DESTINATION: &str = "row of a destination, by its sort; own address 5, all ones 6; plus 7 for a 0, 14 for a marked 0";
const OWN_ASKED_FOR: &str = "number asked of oneself equal 0, newer 1, older 2, half apart 3; plus 4 for a 0, 8 for a marked 0";
const ACTIVE_ASKED_FOR: &str = "the same of an active row, plus 12 for DO, plus 24 for RF";
const REPLIES: &str = "replies to a RREQ";
const UNICAST_GOES_ON: &str = "unicast RREQ goes on";
const DEPENDENTS: &str = "dependents of a RREP";
const SOURCE: &str = "source of a RREP with an active row 1, own 2, another 0";
const NAMED: &str = "destinations of a RERR";
const MATCHES: &str = "matches of a RERR";

const BELOW_AT_ABOVE: [u32; 3] = [0, 1, 2];

/// Returns COUNT numbers from FIRST on.
const fn range<const FIRST: u32, const COUNT: usize>() -> [u32; COUNT] {
    let mut numbers = [FIRST; COUNT];
    let mut place = 0;
    while place < COUNT {
        numbers[place] += place as u32;
        place += 1;
    }
    numbers
}

/// Some tables are full. In some, nearly all rows lead through one neighbour.
fn some_table(random: &mut Random) -> Vec<u8> {
    let most = random.pick(&[4, 32, 64, MAX_ROWS]);
    let rows = 1 + random.below(most);
    match random.below(3) {
        0 => tables::leaning(rows, random),
        _ => tables::legal(rows, random),
    }
}

/// An accepted call.
struct Accepted<'a> {
    before: Table<'a>,
    after: Table<'a>,
    received: &'a Received,
    emitted: &'a [u8],
}

impl Accepted<'_> {
    fn see(&self, seen: &mut Tally) {
        match Element::read(&self.received.element).expect("it was accepted") {
            Element::Rann(rann) => {
                seen.count(TTL, rann.ttl.into());
                self.see_path(rann.originator, rann.lifetime, seen);
            }
            Element::Rreq(rreq) => {
                seen.count(TTL, rreq.ttl.into());
                self.see_path(rreq.originator, rreq.lifetime, seen);
                self.see_request(&rreq, seen);
            }
            Element::Rrep(rrep) => {
                self.see_path(rrep.destination, rrep.lifetime, seen);
                self.see_reply(&rrep, seen);
            }
            Element::Rerr(rerr) => self.see_error(&rerr, seen),
        }
    }

    /// Returns 0 for no row, 1 for an active row of known number, 2 for an active row of unknown
    /// number, 3 for an expired row, 4 for an invalidated row.
    fn sort(&self, row: Option<Row>) -> u32 {
        match row {
            None => 0,
            Some(row) if row.is_active(self.received.clock) => 2 - u32::from(row.number_known),
            Some(row) if row.status == VALID => 3,
            Some(_) => 4,
        }
    }

    fn see_path(&self, end: Address, lifetime: u32, seen: &mut Tally) {
        let Received {
            clock,
            transmitter,
            link_metric,
            ..
        } = *self.received;
        let row = row(&self.before, end);
        seen.count(END, self.sort(row));
        if let Some(row) = row.filter(|row| row.is_active(clock)) {
            let larger = row.expiry > clock + u64::from(lifetime);
            seen.count(STORED_EXPIRY_LARGER, larger.into());
        }
        if transmitter != end.0 {
            self.see_transmitter(Address(transmitter), link_metric, seen);
        }
    }

    fn see_transmitter(&self, transmitter: Address, link: u32, seen: &mut Tally) {
        let row = row(&self.before, transmitter);
        seen.count(TRANSMITTER, self.sort(row));
        if let Some(row) = row {
            let against_metric = (link.cmp(&row.metric.0) as i32 + 1) as u32;
            if row.is_active(self.received.clock) {
                seen.count(ACTIVE_LINK, against_metric);
            } else if row.has_known_number() {
                seen.count(INACTIVE_LINK, against_metric);
            }
        }
    }

    fn see_request(&self, rreq: &Rreq, seen: &mut Tally) {
        for destination in rreq.destinations() {
            self.see_destination(&destination, seen);
        }
        let ids: Vec<u8> = frames(self.emitted)
            .map(|(_, element)| element[0])
            .collect();
        let replies = ids.iter().filter(|&&id| id == Rrep::ID).count();
        seen.count(REPLIES, replies as u32);
        if rreq.flags & Rreq::UNICAST != 0 {
            let goes_on = ids.contains(&Rreq::ID);
            seen.count(UNICAST_GOES_ON, goes_on.into());
        }
    }

    /// Counts a destination by the rows after the path was learnt.
    fn see_destination(&self, asked: &Destination, seen: &mut Tally) {
        let head = self.before.head();
        let with = asked_with(asked);
        if asked.address == head.own {
            seen.count(DESTINATION, 5 + 7 * with);
            let relation = relation(asked.number, head.number);
            seen.count(OWN_ASKED_FOR, relation + 4 * with);
        } else if asked.address == Address::ALL_ONES {
            seen.count(DESTINATION, 6 + 7 * with);
        } else {
            let row = row(&self.after, asked.address);
            let sort = self.sort(row);
            seen.count(DESTINATION, sort + 7 * with);
            if let (Some(row), 1) = (row, sort) {
                let flags = u32::from(asked.flags & (Destination::DO | Destination::RF));
                let relation = relation(asked.number, row.number);
                seen.count(ACTIVE_ASKED_FOR, relation + 4 * with + 12 * flags);
            }
        }
    }

    fn see_reply(&self, rrep: &Rrep, seen: &mut Tally) {
        seen.count(DEPENDENTS, rrep.dependents().len() as u32);
        let row = self.after.active_row_for(rrep.source, self.received.clock);
        let own = rrep.source == self.after.head().own;
        seen.count(SOURCE, u32::from(row.is_some()) + 2 * u32::from(own));
    }

    fn see_error(&self, rerr: &Rerr, seen: &mut Tally) {
        seen.count(NAMED, rerr.destinations().len() as u32);
        let rows = self.before.rows().zip(self.after.rows());
        let matches = rows.filter(|(before, after)| before.status != after.status);
        seen.count(MATCHES, matches.count() as u32);
    }
}

fn row(table: &Table, destination: Address) -> Option<Row> {
    table.row_for(destination).map(|(_, row)| row)
}

/// Returns 0 for a number other than 0, 1 for a 0 without a mark, 2 for a marked 0.
fn asked_with(asked: &Destination) -> u32 {
    match asked.requested() {
        Some(SequenceNumber(0)) => 1,
        Some(_) => 0,
        None => 2,
    }
}

/// Returns 0 for equal, 1 for newer, 2 for older, 3 for half the circle apart.
fn relation(asked: SequenceNumber, held: SequenceNumber) -> u32 {
    match asked.0.wrapping_sub(held.0) {
        0 => 0,
        0x8000_0000 => 3,
        ahead => 1 + (ahead >> 31),
    }
}

/// Forgets a row or reports a neighbour as broken, so that later elements meet rows as these calls
/// leave them.
fn now_and_then_lose(point: &mut Point, run: &mut Run) {
    let random = &mut run.random;
    match random.below(16) {
        0 | 1 => {
            let destination = tables::some_destination(point.table(), random);
            point.forget(destination, run);
        }
        2 => {
            let neighbour = tables::some_neighbour(point.table(), random);
            let clock = tables::some_clock(point.table(), random);
            point.report_break(clock, neighbour, run);
        }
        _ => {}
    }
}

#[test]
fn library_and_reference_agree() {
    let run = &mut Run::announced("receiving all kinds", 0x0130_0131);
    let seen = &mut Tally::default();
    for _ in 0..TABLES {
        let table = some_table(&mut run.random);
        let mut point = Point::new(&table, &mut run.random);
        for _ in 0..CALLS_PER_TABLE {
            now_and_then_lose(&mut point, run);
            let received = received::suited(point.table(), &mut run.random);
            if point.receive(&received, run).answer == ACCEPTED {
                let [before, after] = [point.before(), point.table()]
                    .map(|octets| Table::cut(octets).expect("it was accepted"));
                assert_eq!(after.check(), Ok(()), "no table is left by {received:?}");
                let emitted = point.emitted();
                let accepted = Accepted {
                    before,
                    after,
                    received: &received,
                    emitted,
                };
                accepted.see(seen);
            }
        }
    }
    seen.report(&SEEN);
    seen.check(&SEEN, LEAST);
    let received = run.answers.total_of("receive");
    println!("elements of all kinds received: {received}");
}
