//! The library's reader and the reference's read back what the calls emit, and must find the fields
//! that the call had to write. An address is one number here, with its first octet lowest.

use hwmp_tests::answers::ACCEPTED;
use hwmp_tests::library::Outcome;
use hwmp_tests::probe::{self, Probe};
use hwmp_tests::random::Random;
use hwmp_tests::reference::element::MOST_NUMBERS;
use hwmp_tests::reference::table::{Head, MAX_ROWS, Row, Table};
use hwmp_tests::reference::{Address, SequenceNumber};
use hwmp_tests::stand_ins::tested;
use hwmp_tests::tables;
use hwmp_tests::worked::{ALL_ONES, LEAST_OUTPUT};

const TABLES: usize = 60_000;

/// How many frames of each call must have been read back.
const LEAST: usize = 5_000;

/// No element has this number, so it shows where an element's numbers end.
const NO_NUMBER: u64 = u64::MAX;

fn read(by: &Probe, element: &[u8]) -> Vec<u64> {
    let mut numbers = [NO_NUMBER; MOST_NUMBERS];
    let answer = by.read(element, &mut numbers);
    assert_eq!(
        answer, ACCEPTED,
        "{element:?} is refused by the {}",
        by.name
    );
    let own = numbers.iter().take_while(|&&number| number != NO_NUMBER);
    own.copied().collect()
}

/// Cuts what was emitted into frames, by their Length octets, and compares the numbers of each with
/// those expected. All frames go to all ones.
fn read_back(what: &str, outcome: Outcome, output: &[u8], expected: &[Vec<u64>]) -> usize {
    let mut rest = &output[..outcome.octets as usize];
    for numbers in expected {
        let (receiver, after) = rest.split_at(6);
        assert_eq!(receiver, ALL_ONES, "{what}");
        let (element, others) = after.split_at(2 + usize::from(after[1]));
        for by in [&probe::LIBRARY, &probe::REFERENCE] {
            assert_eq!(&read(by, element), numbers, "{what} by the {}", by.name);
        }
        rest = others;
    }
    assert!(rest.is_empty(), "{what}: more octets than frames");
    assert_eq!(outcome.frames as usize, expected.len(), "{what}");
    expected.len()
}

/// A point with a legal table, and the fields of that table before a call.
struct Point {
    octets: Vec<u8>,
    head: Head,
    rows: Vec<Row>,
}

impl Point {
    fn random(random: &mut Random) -> Point {
        let rows = 1 + random.below(MAX_ROWS);
        let octets = if random.one_in(2) {
            tables::leaning(rows, random)
        } else {
            tables::legal(rows, random)
        };
        let table = Table::cut(&octets).expect("a table's length");
        let (head, rows) = (table.head(), table.rows().collect());
        Point { octets, head, rows }
    }

    fn next_number(&self) -> u64 {
        self.head.number.0.wrapping_add(1).into()
    }

    fn next_request_id(&self) -> u64 {
        self.head.request_id.0.wrapping_add(1).into()
    }

    /// Returns the numbers of a request before its destinations.
    fn request(&self, flags: u8, lifetime: u32, count: usize) -> Vec<u64> {
        vec![
            130,
            26 + 11 * count as u64,
            flags.into(),
            0,
            31,
            self.next_request_id(),
            self.head.own.number(),
            self.next_number(),
            lifetime.into(),
            0,
            count as u64,
        ]
    }

    /// Returns what an ask writes for a destination: 0 and the known number, or the mark 4 and 0.
    fn mark_and_number(&self, address: Address) -> (u64, u64) {
        let row = self.rows.iter().find(|row| row.destination == address);
        match row {
            Some(row) if row.number_known == 1 => (0, row.number.0.into()),
            _ => (4, 0),
        }
    }

    fn ask(&mut self, random: &mut Random) -> usize {
        let lifetime = tables::some_lifetime(random);
        let items = tables::some_items(&self.octets, random);
        let mut output = [0; LEAST_OUTPUT];
        let outcome = (tested().ask)(&mut self.octets, &mut output, lifetime, &items);
        if outcome.answer != ACCEPTED {
            return 0;
        }
        let (items, _) = items.as_chunks::<7>();
        let mut numbers = self.request(0, lifetime, items.len());
        for &[flags, a, b, c, d, e, f] in items {
            let address = Address([a, b, c, d, e, f]);
            let (mark, number) = self.mark_and_number(address);
            numbers.extend([u64::from(flags) + mark, address.number(), number]);
        }
        read_back("ask", outcome, &output, &[numbers])
    }

    fn announce(&mut self, random: &mut Random) -> usize {
        let (flags, lifetime) = (tables::some_flags(random), tables::some_lifetime(random));
        let mut output = [0; LEAST_OUTPUT];
        let outcome = (tested().announce)(&mut self.octets, &mut output, flags, lifetime);
        if outcome.answer != ACCEPTED {
            return 0;
        }
        let numbers = vec![
            126,
            21,
            flags.into(),
            0,
            31,
            self.head.own.number(),
            self.next_number(),
            lifetime.into(),
            0,
        ];
        read_back("announce", outcome, &output, &[numbers])
    }

    fn root_request(&mut self, random: &mut Random) -> usize {
        let (flags, lifetime) = (tables::some_flags(random), tables::some_lifetime(random));
        let mut output = [0; LEAST_OUTPUT];
        let outcome = (tested().root_request)(&mut self.octets, &mut output, flags, lifetime);
        if outcome.answer != ACCEPTED {
            return 0;
        }
        let mut numbers = self.request(flags, lifetime, 1);
        numbers.extend([7, 0xFFFF_FFFF_FFFF, 0]);
        read_back("root request", outcome, &output, &[numbers])
    }

    fn report_break(&mut self, random: &mut Random) -> usize {
        let clock = tables::some_clock(&self.octets, random);
        let neighbour = tables::some_neighbour(&self.octets, random);
        let mut output = [0; LEAST_OUTPUT];
        let outcome = (tested().report_break)(&mut self.octets, &mut output, clock, &neighbour);
        if outcome.answer != ACCEPTED {
            return 0;
        }
        let lost: Vec<[u64; 2]> = self
            .rows
            .iter()
            .filter(|row| row.status == 1 && clock < row.expiry && row.next_hop.0 == neighbour)
            .map(|row| [row.destination.number(), announced(row).0.into()])
            .collect();
        let errors = lost.chunks(25).map(|lost| {
            let count = lost.len() as u64;
            [&[132, 2 + 10 * count, 0, count][..], lost.as_flattened()].concat()
        });
        read_back("break", outcome, &output, &errors.collect::<Vec<_>>())
    }
}

/// Returns the number with which a RERR names a lost row: stepped if it is known.
fn announced(row: &Row) -> SequenceNumber {
    SequenceNumber(row.number.0.wrapping_add(row.number_known.into()))
}

#[test]
pub fn frames_are_read_back_as_they_were_meant() {
    let random = &mut Random::announced("reading back", 0x0132_0130);
    let mut frames = [0; 4];
    for _ in 0..TABLES {
        let point = &mut Point::random(random);
        let call = random.below(4);
        frames[call] += match call {
            0 => point.ask(random),
            1 => point.announce(random),
            2 => point.root_request(random),
            _ => point.report_break(random),
        };
    }
    println!("frames of ask, announce, root request, break read back: {frames:?}");
    assert!(frames.iter().all(|&count| count >= LEAST), "{frames:?}");
}
