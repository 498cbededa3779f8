//! What is timed for elements: reading every number, writing a frame and judging the list, for the
//! largest element of each type. Both implementations are called as C would call them.

use hwmp_tests::elements::{self, KINDS, Kind};
use hwmp_tests::probe::{Probe, REFERENCE};
use hwmp_tests::random::Random;
use hwmp_tests::reference::LEAST_OUTPUT;
use hwmp_tests::reference::element::{MOST_NUMBERS, Numbers};
use hwmp_tests::tables;

use crate::timing::Call;

/// Several elements in turn, so that the processor cannot predict every branch.
const ELEMENTS: usize = 8;

pub struct Input {
    element: Vec<u8>,
    address: [u8; 6],
    numbers: Numbers,
    out: Vec<u8>,
}

pub struct ElementCase {
    pub name: &'static str,
    id: u8,
    pub count: usize,
    pub call: Call<Probe, Input>,
}

const fn case(name: &'static str, id: u8, count: usize, call: Call<Probe, Input>) -> ElementCase {
    ElementCase {
        name,
        id,
        count,
        call,
    }
}

pub const ELEMENT_CASES: [ElementCase; 12] = [
    case("read a RANN", 126, 0, read),
    case("read a RREQ", 130, 20, read),
    case("read a RREP", 131, 22, read),
    case("read a RERR", 132, 25, read),
    case("write a RANN", 126, 0, write),
    case("write a RREQ", 130, 20, write),
    case("write a RREQ one by one", 130, 20, write_singly),
    case("write a RREP", 131, 22, write),
    case("write a RERR one by one", 132, 25, write_singly),
    case("faults of a RREQ", 130, 20, faults),
    case("faults of a RREP", 131, 22, faults),
    case("faults of a RERR", 132, 25, faults),
];

fn read(by: &Probe, input: &mut Input) -> u32 {
    by.read(&input.element, &mut input.numbers)
}

fn write(by: &Probe, input: &mut Input) -> u32 {
    by.write(&input.element, &input.address, &mut input.out, 0, 0)
}

fn write_singly(by: &Probe, input: &mut Input) -> u32 {
    by.write(&input.element, &input.address, &mut input.out, 0, 1)
}

fn faults(by: &Probe, input: &mut Input) -> u32 {
    by.faults(&input.element, &input.address)
}

pub fn inputs(case: &ElementCase, random: &mut Random) -> Vec<Input> {
    let kind = KINDS.iter().find(|kind| kind.id == case.id);
    let kind = kind.expect("a type's ID");
    let input = |_| Input {
        element: faultless(kind, case.count, random),
        address: tables::individual(random).0,
        numbers: [0; MOST_NUMBERS],
        out: vec![0; LEAST_OUTPUT],
    };
    (0..ELEMENTS).map(input).collect()
}

/// Returns an element without a fault in its list, so that no search in the list ends early.
pub fn faultless(kind: &Kind, count: usize, random: &mut Random) -> Vec<u8> {
    loop {
        let element = elements::well_formed(kind, count, random);
        if REFERENCE.faults(&element, &[0; 6]) == 0 {
            return element;
        }
    }
}

/// Times mean little unless all implementations do the same work. Each must answer 0, and all must
/// have the same outcome.
pub fn confirm(case: &ElementCase, inputs: &mut [Input], bys: &[&Probe]) {
    for input in inputs.iter_mut() {
        let mut outcomes = bys.iter().map(|by| {
            input.numbers.fill(0);
            input.out.fill(0);
            let answer = (case.call)(by, input);
            assert_eq!(answer, 0, "{} by {}", case.name, by.name);
            (input.numbers, input.out.clone())
        });
        let first = outcomes.next().expect("some implementation");
        assert!(outcomes.all(|outcome| outcome == first), "{}", case.name);
    }
}
