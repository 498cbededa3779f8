//! The order of the refusals, and the lengths of table, output and element.

use hwmp_tests::answers::{
    ABOUT_ITSELF, ACCEPTED, BAD_ADDRESS, BAD_COUNT, BAD_LIST, BAD_NEIGHBOUR, CLOCK_TOO_LARGE,
    ELEMENT_LENGTH, FROM_ITSELF, LOW_TTL, METRIC_TOO_LARGE, NO_LIFETIME, NO_LINK, NO_MATCH,
    NO_ROOM, NOT_A_TABLE, OLD_CLOCK, SHORT_OUTPUT, STALE, TABLE_LENGTH, TOO_MANY_HOPS, UNKNOWN_ID,
};
use hwmp_tests::fence::{Fence, Side};
use hwmp_tests::stand_ins::both;
use hwmp_tests::worked::{
    FREE, GROUP, LAST_CLOCK, LEAST_OUTPUT, OWN, Row, ZERO, refused, refused_with_room, table,
};

use crate::cases::{
    A, B, C, CLOCK, END, LINK, PATH, Path, T, UNKNOWN, active, rann, receive, rerr, rrep, rreq,
};

/// The faults that are in a call.
struct Faults(Vec<u32>);

impl Faults {
    fn has(&self, number: u32) -> bool {
        self.0.contains(&number)
    }

    /// Returns the value that has the fault if the call has it, otherwise the sound value.
    fn or<V>(&self, number: u32, faulty: V, sound: V) -> V {
        if self.has(number) { faulty } else { sound }
    }

    /// The subject has a row, whose number is older than the path's. The transmitter needs a new
    /// row.
    fn table(&self) -> Vec<u8> {
        let end = Row {
            number: 8,
            ..active(END)
        };
        let hit = Row {
            next_hop: T,
            ..active(A)
        };
        let last = self.or(NO_ROOM, active(C), FREE);
        let mut octets = table(5, 7, 1000, &[end, hit, active(B), last]);
        octets[6] = self.has(NOT_A_TABLE).into();
        octets.truncate(octets.len() - usize::from(self.has(TABLE_LENGTH)));
        octets
    }

    fn output(&self) -> Vec<u8> {
        vec![0xA5; LEAST_OUTPUT - usize::from(self.has(SHORT_OUTPUT))]
    }

    fn clock(&self) -> u64 {
        self.or(
            CLOCK_TOO_LARGE,
            LAST_CLOCK + 1,
            self.or(OLD_CLOCK, 999, CLOCK),
        )
    }

    fn transmitter(&self) -> [u8; 6] {
        self.or(BAD_NEIGHBOUR, GROUP, self.or(FROM_ITSELF, OWN, T))
    }

    fn link_metric(&self) -> u32 {
        self.or(NO_LINK, 0, LINK)
    }

    fn path(&self) -> Path {
        Path {
            hop_count: self.or(TOO_MANY_HOPS, 255, PATH.hop_count),
            ttl: self.or(LOW_TTL, 1, PATH.ttl),
            end: self.or(ABOUT_ITSELF, OWN, END),
            number: self.or(STALE, 7, 9),
            lifetime: self.or(NO_LIFETIME, 0, PATH.lifetime),
            metric: self.or(METRIC_TOO_LARGE, 0xFFFF_FFFF, PATH.metric),
        }
    }

    /// A RANN has only one address, so its fault 9 takes the place of the subject.
    fn rann(&self) -> Vec<u8> {
        let path = self.path();
        let end = self.or(BAD_ADDRESS, GROUP, path.end);
        rann(0, Path { end, ..path })
    }

    fn rreq(&self) -> Vec<u8> {
        let second = self.or(BAD_ADDRESS, GROUP, C);
        rreq(
            self.or(BAD_LIST, 2, 0),
            self.path(),
            &[(0, A, 0), (0, second, 0)],
        )
    }

    /// The first destination is marked. Its fault 10 is a number other than 0.
    fn marked_rreq(&self) -> Vec<u8> {
        let second = self.or(BAD_ADDRESS, GROUP, C);
        let first = (UNKNOWN, A, self.or(BAD_LIST, 7, 0));
        rreq(0, self.path(), &[first, (0, second, 0)])
    }

    fn rrep(&self) -> Vec<u8> {
        let path = self.path();
        let source = self.or(BAD_ADDRESS, GROUP, self.or(BAD_LIST, path.end, C));
        rrep(0, path, source, &[(A, 1)])
    }

    fn rerr(&self) -> Vec<u8> {
        let hit = self.or(NO_MATCH, B, A);
        let third = self.or(BAD_LIST, hit, ZERO);
        let mut named = vec![(hit, 10), (self.or(BAD_ADDRESS, GROUP, C), 10)];
        if third != ZERO {
            named.push((third, 10));
        }
        rerr(0, &named)
    }

    /// Fault 8 takes an octet off, and Length counts the rest. Fault 6 adds an octet.
    fn spoilt(&self, mut element: Vec<u8>) -> Vec<u8> {
        if self.has(BAD_COUNT) {
            element.pop();
            element[1] -= 1;
        }
        if self.has(UNKNOWN_ID) {
            element[0] = 99;
        }
        if self.has(ELEMENT_LENGTH) {
            element.push(0);
        }
        element
    }
}

/// The refusals that a RREQ can meet.
const OF_A_RREQ: &[u32] = &[
    TABLE_LENGTH,
    SHORT_OUTPUT,
    CLOCK_TOO_LARGE,
    BAD_NEIGHBOUR,
    NO_LINK,
    ELEMENT_LENGTH,
    UNKNOWN_ID,
    BAD_COUNT,
    BAD_ADDRESS,
    BAD_LIST,
    NO_LIFETIME,
    TOO_MANY_HOPS,
    METRIC_TOO_LARGE,
    NOT_A_TABLE,
    OLD_CLOCK,
    FROM_ITSELF,
    ABOUT_ITSELF,
    STALE,
    NO_ROOM,
];

/// The types, each with the refusals that it can meet.
type Type = (&'static str, &'static [u32], fn(&Faults) -> Vec<u8>);
const TYPES: [Type; 5] = [
    (
        "RANN",
        &[
            TABLE_LENGTH,
            SHORT_OUTPUT,
            CLOCK_TOO_LARGE,
            BAD_NEIGHBOUR,
            NO_LINK,
            ELEMENT_LENGTH,
            UNKNOWN_ID,
            BAD_COUNT,
            BAD_ADDRESS,
            NO_LIFETIME,
            TOO_MANY_HOPS,
            METRIC_TOO_LARGE,
            NOT_A_TABLE,
            OLD_CLOCK,
            FROM_ITSELF,
            ABOUT_ITSELF,
            STALE,
            NO_ROOM,
        ],
        Faults::rann,
    ),
    ("RREQ", OF_A_RREQ, Faults::rreq),
    ("RREQ with a mark", OF_A_RREQ, Faults::marked_rreq),
    (
        "RREP",
        &[
            TABLE_LENGTH,
            SHORT_OUTPUT,
            CLOCK_TOO_LARGE,
            BAD_NEIGHBOUR,
            NO_LINK,
            ELEMENT_LENGTH,
            UNKNOWN_ID,
            BAD_COUNT,
            BAD_ADDRESS,
            BAD_LIST,
            NO_LIFETIME,
            TOO_MANY_HOPS,
            METRIC_TOO_LARGE,
            LOW_TTL,
            NOT_A_TABLE,
            OLD_CLOCK,
            FROM_ITSELF,
            ABOUT_ITSELF,
            STALE,
            NO_ROOM,
        ],
        Faults::rrep,
    ),
    (
        "RERR",
        &[
            TABLE_LENGTH,
            SHORT_OUTPUT,
            CLOCK_TOO_LARGE,
            BAD_NEIGHBOUR,
            NO_LINK,
            ELEMENT_LENGTH,
            UNKNOWN_ID,
            BAD_COUNT,
            BAD_ADDRESS,
            BAD_LIST,
            NOT_A_TABLE,
            OLD_CLOCK,
            FROM_ITSELF,
            NO_MATCH,
        ],
        Faults::rerr,
    ),
];

/// Returns every set of at most three numbers, each set in their order.
fn sets_of_three(numbers: &[u32]) -> Vec<Faults> {
    let mut sets = vec![Faults(vec![])];
    for (place, &first) in numbers.iter().enumerate() {
        sets.push(Faults(vec![first]));
        for (next, &second) in numbers.iter().enumerate().skip(place + 1) {
            sets.push(Faults(vec![first, second]));
            for &third in &numbers[next + 1..] {
                sets.push(Faults(vec![first, second, third]));
            }
        }
    }
    sets
}

/// Every set of at most three faults gives the lowest of them. Some faults cannot stand together in
/// one operand, for example a clock that is too large and a clock that is behind. Only the lower
/// one is then really there.
#[test]
fn each_type_gives_the_lowest_refusal() {
    for (name, numbers, element) in TYPES {
        let sets = sets_of_three(numbers);
        for faults in &sets {
            let what = format!("{name} with {:?}", faults.0);
            let element = faults.spoilt(element(faults));
            let (clock, transmitter) = (faults.clock(), faults.transmitter());
            let call = receive(clock, transmitter, faults.link_metric(), &element);
            let (table, output) = (faults.table(), faults.output());
            match faults.0.first() {
                Some(&lowest) => refused(&what, &table, &output, &call, lowest),
                // Without a fault the call must be accepted. Otherwise the sets with faults would
                // show nothing.
                None => {
                    for by in both() {
                        let outcome = call(by, &mut table.clone(), &mut output.clone());
                        assert_eq!(outcome.answer, ACCEPTED, "{what}: {}", by.name);
                    }
                }
            }
        }
        println!("{name}: {} sets of faults give the lowest", sets.len());
    }
}

#[test]
fn only_whole_tables_of_1_to_128_rows_have_a_length() {
    let lengths: Vec<usize> = (1..=128).map(|rows| 32 + 32 * rows).collect();
    let element = rann(0, PATH);
    for length in 0..=32 + 32 * 131 {
        // Zeros are not a table, so a length that fits is refused with 21 instead.
        let answer = if lengths.contains(&length) {
            NOT_A_TABLE
        } else {
            TABLE_LENGTH
        };
        let call = receive(CLOCK, T, LINK, &element);
        refused_with_room(&format!("length {length}"), &vec![0; length], &call, answer);
    }
}

/// Also for an element that emits nothing. The output lies next to a fence, so that a frame in a
/// shorter output would end the run.
#[test]
fn an_output_has_at_least_1560_octets() {
    let fence = &mut Fence::build();
    let silent = Path { ttl: 1, ..PATH };
    for element in [rann(0, PATH), rann(0, silent)] {
        for by in both() {
            for length in (0..1570).chain([2000, 4096, 65536]) {
                let output = fence.lend(&vec![0xA5; length], Side::After);
                let table = &mut table(5, 7, 1000, &[FREE; 2]);
                let outcome = receive(CLOCK, T, LINK, &element)(by, table, output);
                let expected = if length < 1560 {
                    SHORT_OUTPUT
                } else {
                    ACCEPTED
                };
                assert_eq!(outcome.answer, expected, "in {length}: {}", by.name);
                let changed = output.iter().any(|&octet| octet != 0xA5);
                assert_eq!(changed, outcome.frames > 0, "in {length}: {}", by.name);
            }
        }
    }
}

/// An element of each type, cut anywhere, is refused with 6. With a Length that counts what is left
/// it is refused with 8, and nothing beyond it is read.
#[test]
fn elements_that_are_cut_short() {
    let before = table(5, 7, 1000, &[FREE; 4]);
    let fence = &mut Fence::build();
    let mut refuse = |name: &str, element: &[u8], answer: u32| {
        let lent = fence.lend(element, Side::After);
        let what = format!("{name} of {}", lent.len());
        refused_with_room(&what, &before, &receive(CLOCK, T, LINK, lent), answer);
    };
    for (name, _, element) in TYPES {
        let whole = element(&Faults(vec![]));
        for length in 0..whole.len() {
            let mut cut = whole[..length].to_vec();
            refuse(name, &cut, ELEMENT_LENGTH);
            if length >= 2 {
                cut[1] = length as u8 - 2;
                refuse(name, &cut, BAD_COUNT);
            }
        }
    }
}

/// How many entries a type may have, in an element whose Length fits them. From 256 on Length
/// wraps, and then it does not count the octets after it.
#[test]
fn counts_of_entries() {
    let before = table(5, 7, 1000, &[FREE; 4]);
    let entries = |count: u8| (0..count).map(|place| ([0x20, 0, 0, 0, 0, place], 0));
    let asked = |count| entries(count).map(|(address, number)| (0, address, number));
    for count in 0..=60 {
        let named: Vec<_> = entries(count).collect();
        let asked: Vec<_> = asked(count).collect();
        // The element, how many entries fit, the answer if they fit, and its Length.
        let elements = [
            (
                rreq(0, PATH, &asked),
                1..=20,
                ACCEPTED,
                26 + 11 * usize::from(count),
            ),
            (
                rrep(0, PATH, C, &named),
                0..=22,
                ACCEPTED,
                32 + 10 * usize::from(count),
            ),
            (
                rerr(0, &named),
                1..=25,
                NO_MATCH,
                2 + 10 * usize::from(count),
            ),
        ];
        for (element, fitting, answer, length) in elements {
            let answer = match (length > 255, fitting.contains(&count)) {
                (true, _) => ELEMENT_LENGTH,
                (false, false) => BAD_COUNT,
                (false, true) => answer,
            };
            for by in both() {
                let (table, output) = (&mut before.clone(), &mut [0; LEAST_OUTPUT]);
                let outcome = receive(CLOCK, T, LINK, &element)(by, table, output);
                let what = format!("{count} entries of {} by the {}", element[0], by.name);
                assert_eq!(outcome.answer, answer, "{what}");
            }
        }
    }
}

/// Clocks and transmitters at the ends of what is allowed.
#[test]
fn clocks_and_transmitters() {
    let before = table(5, 7, 1000, &[FREE; 2]);
    let late = table(5, 7, LAST_CLOCK, &[FREE; 2]);
    let element = rann(0, PATH);
    let refuse = |what: &str, before: &[u8], clock, transmitter, answer| {
        let call = receive(clock, transmitter, LINK, &element);
        refused_with_room(what, before, &call, answer);
    };
    refuse("clock 2^48", &before, LAST_CLOCK + 1, T, CLOCK_TOO_LARGE);
    refuse("clock 2^63", &before, 1 << 63, T, CLOCK_TOO_LARGE);
    refuse("clock 2^64 - 1", &before, u64::MAX, T, CLOCK_TOO_LARGE);
    refuse("clock one behind", &before, 999, T, OLD_CLOCK);
    refuse("clock 0", &before, 0, T, OLD_CLOCK);
    refuse("clock behind the last", &late, LAST_CLOCK - 1, T, OLD_CLOCK);
    refuse("group", &before, CLOCK, GROUP, BAD_NEIGHBOUR);
    refuse("all ones", &before, CLOCK, [0xFF; 6], BAD_NEIGHBOUR);
    refuse("zero", &before, CLOCK, ZERO, BAD_NEIGHBOUR);
    refuse("own", &before, CLOCK, OWN, FROM_ITSELF);
}
