//! The order of the refusals, and the lengths of table and output, for all four calls.

use hwmp_tests::answers::{
    ABOUT_ITSELF, ACCEPTED, BAD_ADDRESS, BAD_COUNT, BAD_LIST, BAD_NEIGHBOUR, CLOCK_TOO_LARGE,
    FROM_ITSELF, NO_LIFETIME, NOT_A_TABLE, OLD_CLOCK, SHORT_OUTPUT, TABLE_LENGTH,
};
use hwmp_tests::fence::{Fence, Side};
use hwmp_tests::implementation::Implementation;
use hwmp_tests::library::Outcome;
use hwmp_tests::stand_ins::both;
use hwmp_tests::worked::{
    Address, Call, FREE, GROUP, LAST_CLOCK, LEAST_OUTPUT, OWN, Row, refused, refused_with_room,
    table,
};

const DESTINATION: Address = [2, 0, 0, 0, 0, 9];
const NEIGHBOUR: Address = [2, 0, 0, 0, 0, 2];

fn sample() -> Vec<u8> {
    let row = Row {
        status: 1,
        known: 1,
        hop_count: 2,
        destination: DESTINATION,
        next_hop: NEIGHBOUR,
        number: 7,
        metric: 30,
        expiry: 6000,
    };
    table(5, 7, 1000, &[FREE, row, FREE, FREE])
}

/// The faults that are in a call.
struct Faults(Vec<u32>);

impl Faults {
    fn has(&self, number: u32) -> bool {
        self.0.contains(&number)
    }

    /// Fault 1 cuts off an octet, fault 21 sets the first zero octet of the head.
    fn table(&self) -> Vec<u8> {
        let mut octets = sample();
        octets[6] = self.has(NOT_A_TABLE).into();
        octets.truncate(octets.len() - usize::from(self.has(TABLE_LENGTH)));
        octets
    }

    fn output(&self) -> Vec<u8> {
        vec![0xA5; LEAST_OUTPUT - usize::from(self.has(SHORT_OUTPUT))]
    }

    /// Three items. Faults 9, 10 and 24 each spoil a different item, and fault 8 cuts off an octet.
    fn items(&self) -> Vec<u8> {
        let first = if self.has(ABOUT_ITSELF) {
            OWN
        } else {
            DESTINATION
        };
        let flags = if self.has(BAD_LIST) { 4 } else { 3 };
        let last = if self.has(BAD_ADDRESS) {
            GROUP
        } else {
            NEIGHBOUR
        };
        let mut items = [&[0][..], &first, &[flags], &[2, 0, 0, 0, 0, 3], &[1], &last].concat();
        items.truncate(items.len() - usize::from(self.has(BAD_COUNT)));
        items
    }

    fn lifetime(&self) -> u32 {
        if self.has(NO_LIFETIME) { 0 } else { 1000 }
    }

    fn flags(&self) -> u8 {
        if self.has(BAD_LIST) { 2 } else { 1 }
    }

    fn clock(&self) -> u64 {
        match (self.has(CLOCK_TOO_LARGE), self.has(OLD_CLOCK)) {
            (true, _) => LAST_CLOCK + 1,
            (_, true) => 999,
            _ => 1000,
        }
    }

    fn neighbour(&self) -> Address {
        match (self.has(BAD_NEIGHBOUR), self.has(FROM_ITSELF)) {
            (true, _) => GROUP,
            (_, true) => OWN,
            _ => NEIGHBOUR,
        }
    }
}

/// A call whose operands have these faults, on a table and an output.
type FaultyCall = fn(&Faults, &Implementation, &mut [u8], &mut [u8]) -> Outcome;

/// The calls, each with the refusals that it can give.
const CALLS: [(&str, &[u32], FaultyCall); 4] = [
    (
        "ask",
        &[
            TABLE_LENGTH,
            SHORT_OUTPUT,
            BAD_COUNT,
            BAD_ADDRESS,
            BAD_LIST,
            NO_LIFETIME,
            NOT_A_TABLE,
            ABOUT_ITSELF,
        ],
        |faults, by, table, output| (by.ask)(table, output, faults.lifetime(), &faults.items()),
    ),
    (
        "announce",
        &[
            TABLE_LENGTH,
            SHORT_OUTPUT,
            BAD_LIST,
            NO_LIFETIME,
            NOT_A_TABLE,
        ],
        |faults, by, table, output| (by.announce)(table, output, faults.flags(), faults.lifetime()),
    ),
    (
        "root request",
        &[
            TABLE_LENGTH,
            SHORT_OUTPUT,
            BAD_LIST,
            NO_LIFETIME,
            NOT_A_TABLE,
        ],
        |faults, by, table, output| {
            (by.root_request)(table, output, faults.flags(), faults.lifetime())
        },
    ),
    (
        "break",
        &[
            TABLE_LENGTH,
            SHORT_OUTPUT,
            CLOCK_TOO_LARGE,
            BAD_NEIGHBOUR,
            NOT_A_TABLE,
            OLD_CLOCK,
            FROM_ITSELF,
        ],
        |faults, by, table, output| {
            (by.report_break)(table, output, faults.clock(), &faults.neighbour())
        },
    ),
];

/// Returns every set of the numbers, each set in their order.
fn sets(numbers: &[u32]) -> impl Iterator<Item = Faults> {
    (0..1 << numbers.len()).map(|chosen: u32| {
        let bits = numbers.iter().enumerate();
        let faults = bits.filter(|(bit, _)| chosen >> bit & 1 == 1);
        Faults(faults.map(|(_, &number)| number).collect())
    })
}

/// Every set of faults gives the lowest of them. A clock cannot be both too large and behind, and a
/// neighbour cannot be both a group and the own address. Where 3 stands with 22, or 4 with 23, only
/// the lower fault is really there.
#[test]
fn each_call_gives_the_lowest_refusal() {
    for (name, numbers, call) in CALLS {
        for faults in sets(numbers) {
            let what = format!("{name} with {:?}", faults.0);
            let call: Call = &|by, table, output| call(&faults, by, table, output);
            match faults.0.first() {
                Some(&lowest) => refused(&what, &faults.table(), &faults.output(), call, lowest),
                None => accepted_by_both(&what, call),
            }
        }
        println!("{name}: every set of faults {numbers:?} gives the lowest");
    }
}

/// Without a fault the call must be accepted. Otherwise the sets above would show nothing.
fn accepted_by_both(what: &str, call: Call) {
    for by in both() {
        let outcome = call(by, &mut sample(), &mut [0xA5; LEAST_OUTPUT]);
        assert_eq!(
            (outcome.answer, outcome.frames),
            (ACCEPTED, 1),
            "{what}: {}",
            by.name
        );
    }
}

/// Runs each call with operands that it accepts.
fn each_call(mut run: impl FnMut(&str, Call)) {
    let without = Faults(vec![]);
    for (name, _, call) in CALLS {
        run(name, &|by, table, output| call(&without, by, table, output));
    }
}

#[test]
fn only_whole_tables_of_1_to_128_rows_have_a_length() {
    let lengths: Vec<usize> = (1..=128).map(|rows| 32 + 32 * rows).collect();
    let most = 32 + 32 * 131;
    each_call(|name, call| {
        for length in 0..=most {
            // Zeros are not a table, so a length that fits is refused with 21 instead.
            let answer = if lengths.contains(&length) {
                NOT_A_TABLE
            } else {
                TABLE_LENGTH
            };
            refused_with_room(
                &format!("{name} on {length}"),
                &vec![0; length],
                call,
                answer,
            );
        }
    });
    println!(
        "each call: of table lengths 0 to {most} {} fit",
        lengths.len()
    );
}

/// The output lies next to a fence, so that a frame in a shorter output would end the run.
#[test]
fn an_output_has_at_least_1560_octets() {
    let fence = &mut Fence::build();
    each_call(|name, call| {
        for by in both() {
            for length in (0..1570).chain([2000, 4096, 65536]) {
                let output = fence.lend(&vec![0xA5; length], Side::After);
                let outcome = call(by, &mut sample(), output);
                let expected = if length < 1560 {
                    SHORT_OUTPUT
                } else {
                    ACCEPTED
                };
                assert_eq!(outcome.answer, expected, "{name} in {length}: {}", by.name);
                let changed = output.iter().any(|&octet| octet != 0xA5);
                assert_eq!(changed, length >= 1560, "{name} in {length}: {}", by.name);
            }
        }
    });
    println!("each call: outputs of 0 to 1,559 octets refused with 2, 1,560 and more accepted");
}
