//! The commands as docs/PROTOCOL.md, 'Bench', lays them out.

use hwmp_tests::worked::Address;

pub const UNKNOWN: [u8; 7] = [0, 9, 10, 49, 56, 128, 255];

pub fn point(address: Address, number: u32) -> Vec<u8> {
    [&[1][..], &address, &number.to_le_bytes()].concat()
}

pub fn advance(milliseconds: u32) -> Vec<u8> {
    [&[2][..], &milliseconds.to_le_bytes()].concat()
}

pub fn link(one: u8, other: u8, metric: u32) -> Vec<u8> {
    [&[3, one, other][..], &metric.to_le_bytes()].concat()
}

pub fn ask(point: u8, flags: u8, destination: Address, lifetime: u32) -> Vec<u8> {
    let lifetime = lifetime.to_le_bytes();
    [&[4, point, flags][..], &destination, &lifetime].concat()
}

pub fn announce(point: u8, lifetime: u32) -> Vec<u8> {
    [&[5, point][..], &lifetime.to_le_bytes()].concat()
}

pub fn deliver(frame: u16, point: u8) -> Vec<u8> {
    let [low, high] = frame.to_le_bytes();
    vec![6, low, high, point]
}

pub fn report_break(point: u8, neighbour: u8) -> Vec<u8> {
    vec![7, point, neighbour]
}

pub fn walk(point: u8, destination: u8) -> Vec<u8> {
    vec![8, point, destination]
}
