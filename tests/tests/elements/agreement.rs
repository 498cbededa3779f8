//! Compares the library with the separately written implementation: random elements, number by
//! number and octet by octet.

use std::collections::BTreeMap;

use hwmp_tests::answers::{ACCEPTED, BAD_COUNT, ELEMENT_LENGTH, SHORT_OUTPUT, UNKNOWN_ID};
use hwmp_tests::elements::{self, KINDS, Kind};
use hwmp_tests::fence::{Fence, Side};
use hwmp_tests::probe::{LIBRARY, Probe, REFERENCE};
use hwmp_tests::random::Random;
use hwmp_tests::reference::element::MOST_NUMBERS;

const ELEMENTS: usize = 1_000_000;

/// Places on both sides of the numbers, and octets on both sides of the output, that no call may
/// touch. Even a frame written its own length too early shows there.
const NUMBERS_GUARD: usize = 4;
const OUT_GUARD: usize = 600;

/// How often each answer must have occurred. A comparison that never met an answer says nothing
/// about it.
const LEAST: u64 = 1_000;

/// What was called, for which type, and the result.
type Tally = BTreeMap<(&'static str, &'static str, u32), u64>;

const ANOTHER_ID: &str = "another ID";
const NO_OCTETS: &str = "no octets";

fn sort_of(element: &[u8]) -> &'static str {
    match Kind::of(element) {
        Some(kind) => kind.name,
        None if element.is_empty() => NO_OCTETS,
        None => ANOTHER_ID,
    }
}

/// Lists every result of a call, and each legal number of entries.
fn outcomes() -> Vec<(&'static str, &'static str, Vec<u32>)> {
    let mut outcomes = vec![
        ("read", ANOTHER_ID, vec![ELEMENT_LENGTH, UNKNOWN_ID]),
        ("read", NO_OCTETS, vec![ELEMENT_LENGTH]),
        ("write", ANOTHER_ID, vec![ELEMENT_LENGTH, UNKNOWN_ID]),
        ("write", NO_OCTETS, vec![ELEMENT_LENGTH]),
        ("faults", "RANN", vec![0]),
        ("faults", "RREQ", (0..16).collect()),
    ];
    // Only a RREQ may name all ones, so in other types fault 4 comes with fault 1.
    let with_individuals = |sum: &u32| sum & 4 == 0 || sum & 1 == 1;
    for name in ["RREP", "RERR"] {
        outcomes.push(("faults", name, (0..16).filter(with_individuals).collect()));
    }
    for kind in &KINDS {
        outcomes.push(("read", kind.name, vec![ACCEPTED, ELEMENT_LENGTH, BAD_COUNT]));
        outcomes.push((
            "write",
            kind.name,
            vec![ACCEPTED, SHORT_OUTPUT, ELEMENT_LENGTH, BAD_COUNT],
        ));
        let counts = kind.counts().map(|count| count as u32);
        outcomes.push(("entries", kind.name, counts.collect()));
    }
    outcomes
}

/// Reads into places filled with a marker, so that a number too many shows.
fn compare_read(element: &[u8], random: &mut Random) -> u32 {
    let marker = random.number();
    let read = |by: &Probe| {
        let mut places = [marker; NUMBERS_GUARD + MOST_NUMBERS + NUMBERS_GUARD];
        let (numbers, _) = places[NUMBERS_GUARD..].split_first_chunk_mut().unwrap();
        (by.read(element, numbers), places)
    };
    let (found, expected) = (read(&LIBRARY), read(&REFERENCE));
    assert_eq!(found, expected, "read {element:?} beside {marker}");
    found.0
}

/// Writes the list in one part, and entry by entry. Without the reference it also checks that a
/// frame is receiver and element.
fn compare_write(element: &[u8], random: &mut Random) -> u32 {
    let to: [u8; 6] = random.octets();
    let room = elements::some_room(element, random);
    let singly = random.pick(&[1, 2, 256, 1 << 31, u32::MAX]);
    let before = vec![random.octet(); OUT_GUARD + room.out + OUT_GUARD];
    let write = |by: &Probe, singly| {
        let mut after = before.clone();
        let out = &mut after[OUT_GUARD..OUT_GUARD + room.out];
        (by.write(element, &to, out, room.at, singly), after)
    };
    let what = || format!("write {element:?} to {to:?}, {room:?}, singly {singly}");
    let (answer, expected) = write(&REFERENCE, 0);
    if answer == ACCEPTED {
        let at = OUT_GUARD + room.at;
        let frame = [&to, element].concat();
        let by_hand = [&before[..at], &frame, &before[at + frame.len()..]].concat();
        assert!(expected == by_hand, "the reference: {}", what());
    } else {
        assert!(expected == before, "the reference, refusing: {}", what());
    }
    for (by, singly) in [(&LIBRARY, 0), (&LIBRARY, singly), (&REFERENCE, singly)] {
        let (found, after) = write(by, singly);
        assert_eq!(found, answer, "{} by the {}", what(), by.name);
        let at = after.iter().zip(&expected).position(|(a, b)| a != b);
        let octet = at.map(|at| at as isize - OUT_GUARD as isize);
        assert_eq!(octet, None, "octet differs: {} by the {}", what(), by.name);
    }
    answer
}

fn compare_faults(element: &[u8], random: &mut Random) -> u32 {
    let address = elements::some_address(element, random);
    let found = LIBRARY.faults(element, &address);
    let expected = REFERENCE.faults(element, &address);
    assert_eq!(found, expected, "faults of {element:?} with {address:?}");
    found
}

fn one_element(fence: &mut Fence, random: &mut Random, tally: &mut Tally) {
    let element = elements::any(random);
    let lent = &*fence.lend(&element, random.pick(&Side::BOTH));
    let sort = sort_of(&element);
    let mut count = |what, outcome| *tally.entry((what, sort, outcome)).or_default() += 1;
    let answer = compare_read(lent, random);
    count("read", answer);
    count("write", compare_write(lent, random));
    let faults = compare_faults(lent, random);
    if answer == ACCEPTED {
        let at = Kind::of(&element).and_then(Kind::count_at);
        count("entries", at.map_or(0, |at| element[at].into()));
        count("faults", faults);
    } else {
        assert_eq!(faults, 0, "faults of {element:?}, which is refused");
    }
    assert_eq!(lent, element, "the element was changed");
}

fn report_and_check(tally: &Tally) {
    let outcomes = outcomes();
    for (what, sort, listed) in &outcomes {
        let occurred = |&outcome| *tally.get(&(*what, *sort, outcome)).unwrap_or(&0);
        let counts: Vec<String> = listed
            .iter()
            .map(|outcome| format!("{outcome} x {}", occurred(outcome)))
            .collect();
        println!("{what}, {sort}: {}", counts.join(", "));
        let least = listed.iter().map(occurred).min().unwrap();
        assert!(least >= LEAST, "{what}, {sort}: one only {least} times");
    }
    let listed = outcomes.iter().map(|(.., listed)| listed.len()).sum();
    assert_eq!(tally.len(), listed, "outside the list: {tally:?}");
}

#[test]
fn library_and_reference_agree() {
    let random = &mut Random::announced("elements", 0x0126_0130);
    let (fence, tally) = (&mut Fence::build(), &mut Tally::new());
    for _ in 0..ELEMENTS {
        one_element(fence, random, tally);
    }
    println!("elements compared: {ELEMENTS}");
    report_and_check(tally);
}
