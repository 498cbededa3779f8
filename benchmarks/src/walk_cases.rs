//! The walks that are timed: full tables side by side, and a path through all their points to a
//! destination that is none of them.

use hwmp_tests::answers::ACCEPTED;
use hwmp_tests::implementation::Implementation;
use hwmp_tests::library::Walked;
use hwmp_tests::random::Random;
use hwmp_tests::reference::table::ROW_OCTETS;
use hwmp_tests::tables;

use crate::cases::CLOCK;

/// Several meshes in turn, so that the processor cannot predict every branch.
const MESHES: usize = 8;

pub struct Input {
    pub tables: Vec<u8>,
    pub count: u32,
    pub start: [u8; 6],
    pub destination: [u8; 6],
}

/// The numbers of points.
pub const POINTS: [usize; 3] = [1, 4, 16];

fn walked(by: &Implementation, input: &Input) -> Walked {
    let (start, destination) = (&input.start, &input.destination);
    (by.walk)(&input.tables, input.count, CLOCK, start, destination)
}

pub fn walk(by: &Implementation, input: &mut Input) -> u32 {
    walked(by, input).answer
}

pub fn inputs(points: usize, rows: usize, random: &mut Random) -> Vec<Input> {
    let input = |_| input(points, rows, random);
    (0..MESHES).map(input).collect()
}

/// The path leads through the last row of each table, so that each table is searched to its end.
pub fn input(points: usize, rows: usize, random: &mut Random) -> Input {
    let tables = (0..points).map(|_| tables::full(rows, random));
    let mut tables: Vec<Vec<u8>> = tables.collect();
    let destination = tables::individual(random).0;
    let addresses: Vec<[u8; 6]> = tables.iter().map(|table| own_address(table)).collect();
    let next_hops = addresses.iter().skip(1).chain([&destination]);
    for (table, next_hop) in tables.iter_mut().zip(next_hops) {
        lead(table, destination, *next_hop);
    }
    Input {
        tables: tables.concat(),
        count: points as u32,
        start: addresses[0],
        destination,
    }
}

fn own_address(table: &[u8]) -> [u8; 6] {
    table[..6].try_into().expect("six octets")
}

/// Makes the last row active at the clock and of known number.
fn lead(table: &mut [u8], destination: [u8; 6], next_hop: [u8; 6]) {
    let at = table.len() - ROW_OCTETS;
    let row = &mut table[at..];
    row[..2].fill(1);
    row[4..10].copy_from_slice(&destination);
    row[10..16].copy_from_slice(&next_hop);
    row[24..].copy_from_slice(&(CLOCK + 1).to_le_bytes());
}

/// Times mean little unless all implementations do the same work. Each must meet the destination
/// after as many hops as there are points.
pub fn confirm(inputs: &[Input], bys: &[&Implementation]) {
    for input in inputs {
        let expected = Walked {
            answer: ACCEPTED,
            hops: input.count,
        };
        for by in bys {
            assert_eq!(walked(by, input), expected, "walk by {}", by.name);
        }
    }
}
