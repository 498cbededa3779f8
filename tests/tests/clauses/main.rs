//! Tests every clause of docs/PROTOCOL.md, 'Table'. The smallest damage that breaks only that
//! clause is refused with 21, and the value just inside it is not. Offsets and values are written
//! out here and do not depend on the reference.

mod listing;
mod sample;
mod table_octets;

use std::collections::BTreeMap;

use hwmp_tests::answers::{ACCEPTED, NO_MATCH, NO_NEXT_HOP, NO_ROUTE, NOT_A_TABLE, NOT_HELD};
use hwmp_tests::implementation::{Implementation, LIBRARY, REFERENCE};
use hwmp_tests::library::{Outcome, Walked};
use hwmp_tests::reference::table::{Flaw, Table};

use sample::{PLACES, Sample};
use table_octets::cases;

const OWN: [u8; 6] = [2, 0, 0, 0, 0, 1];
const ZERO: [u8; 6] = [0; 6];
const NEXT_HOP: [u8; 6] = [0x20, 0, 0, 0, 0, 2];
const ABSENT: [u8; 6] = [0x30, 0, 0, 0, 0, 3];
const LAST_CLOCK: u64 = (1 << 48) - 1;

/// Asks both implementations for a destination without a row. On a table, forget answers 29, next
/// hop 28 and a walk 41. The clock is the last one, so that no table is ahead of it.
fn judge(octets: &[u8], breaks: Option<Flaw>, what: &str) {
    let flaw = Table::cut(octets).expect("a table's length").check().err();
    assert_eq!(flaw, breaks, "{what}: the case breaks another clause");
    let [forget, next_hop, walk] = match breaks {
        Some(_) => [NOT_A_TABLE, NOT_A_TABLE, NOT_A_TABLE],
        None => [NOT_HELD, NO_NEXT_HOP, NO_ROUTE],
    };
    for by in [&LIBRARY, &REFERENCE] {
        let mut lent = octets.to_vec();
        let answer = (by.forget)(&mut lent, &ABSENT);
        assert_eq!(answer, forget, "{what}: forget by the {}", by.name);
        let hop = (by.next_hop)(&lent, LAST_CLOCK, &ABSENT);
        assert_eq!(hop.answer, next_hop, "{what}: next hop by the {}", by.name);
        assert_eq!(hop.address, ZERO, "{what}: next hop by the {}", by.name);
        let own = octets.first_chunk().expect("a table's length");
        let walked = (by.walk)(&lent, 1, LAST_CLOCK, own, &ABSENT);
        let expected = Walked {
            answer: walk,
            hops: 0,
        };
        assert_eq!(walked, expected, "{what}: walk by the {}", by.name);
        assert_eq!(lent, octets, "{what}: octets changed by the {}", by.name);
        judge_emitting(by, octets, breaks, what);
    }
}

/// Makes the calls that may emit. On a table each gives the answer listed here. Octets that are not
/// a table stay unchanged. The error names a destination without a row, and the call refuses it
/// with 26 only after the table was checked.
fn judge_emitting(by: &Implementation, octets: &[u8], breaks: Option<Flaw>, what: &str) {
    type Call = fn(&Implementation, &mut [u8], &mut [u8]) -> Outcome;
    let calls: [(&str, u32, Call); 5] = [
        ("ask", ACCEPTED, |by, table, output| {
            (by.ask)(table, output, 1, &[[0].as_slice(), &ABSENT].concat())
        }),
        ("announce", ACCEPTED, |by, table, output| {
            (by.announce)(table, output, 1, 1)
        }),
        ("root request", ACCEPTED, |by, table, output| {
            (by.root_request)(table, output, 1, 1)
        }),
        ("break", ACCEPTED, |by, table, output| {
            (by.report_break)(table, output, LAST_CLOCK, &ABSENT)
        }),
        ("receive", NO_MATCH, |by, table, output| {
            let error = [&[132, 12, 0, 1][..], &ABSENT, &[0; 4]].concat();
            (by.receive)(table, output, LAST_CLOCK, &ABSENT, 1, &error)
        }),
    ];
    for (name, answer, call) in calls {
        let (mut lent, mut output) = (octets.to_vec(), [0xA5; 1560]);
        let outcome = call(by, &mut lent, &mut output);
        let what = format!("{what}: {name} by the {}", by.name);
        if breaks.is_none() {
            assert_eq!(outcome.answer, answer, "{what}");
        } else {
            assert_eq!(outcome.answer, NOT_A_TABLE, "{what}");
            assert_eq!(lent, octets, "{what}: table changed");
            assert_eq!(output, [0xA5; 1560], "{what}: output changed");
        }
    }
}

#[test]
fn each_clause_is_checked_and_no_more() {
    let cases = cases();
    let mut counts: BTreeMap<&str, [usize; 2]> = BTreeMap::new();
    for (rows, place) in PLACES {
        judge(&Sample::new(rows, place).octets, None, "unchanged");
        for (index, case) in cases.iter().enumerate() {
            if case.two_rows && rows == 1 {
                continue;
            }
            let mut sample = Sample::new(rows, place);
            (case.change)(&mut sample);
            let clause = case.clause;
            let what = format!("{clause}, case {index}, row {place} of {rows}");
            judge(&sample.octets, case.breaks, &what);
            counts.entry(clause).or_default()[usize::from(case.breaks.is_some())] += 1;
        }
    }
    for (clause, [inside, broken]) in counts {
        println!("{clause}: {broken} broken refused with 21, {inside} inside accepted");
    }
}

#[test]
fn no_clause_is_without_a_case() {
    let cases = cases();
    for flaw in Flaw::ALL {
        let count = cases
            .iter()
            .filter(|case| case.breaks == Some(flaw))
            .count();
        println!("{flaw:?}: {count} cases");
        assert!(count > 0, "no case breaks {flaw:?}");
    }
}
