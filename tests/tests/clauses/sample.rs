//! The legal tables that the cases change.

use crate::{NEXT_HOP, OWN};

/// The rows in which cases are tried: first, middle and last of small and large tables.
pub const PLACES: [(usize, usize); 7] = [
    (1, 0),
    (16, 0),
    (16, 7),
    (16, 15),
    (128, 0),
    (128, 64),
    (128, 127),
];

/// A legal table, with the offsets of the row that a case changes and of a second row. The two
/// differ if the table has more than one row.
pub struct Sample {
    pub octets: Vec<u8>,
    pub row: usize,
    pub second: usize,
}

fn offset(place: usize) -> usize {
    32 + 32 * place
}

fn destination(place: usize) -> [u8; 6] {
    [0x10, 0, 0, 0, 0, place as u8 + 1]
}

impl Sample {
    pub fn new(rows: usize, place: usize) -> Sample {
        let second = if place == 0 { rows - 1 } else { place / 2 };
        let mut sample = Sample {
            octets: vec![0; offset(rows)],
            row: offset(place),
            second: offset(second),
        };
        sample.put(0, &OWN);
        sample.put(8, &5u32.to_le_bytes());
        sample.put(12, &6u32.to_le_bytes());
        sample.put(16, &1000u64.to_le_bytes());
        for other in 0..rows {
            // Some rows are free, but not the two that the cases write to.
            if other % 5 != 4 || other == place || other == second {
                sample.hold(other, 1 + (other % 2) as u8);
            }
        }
        sample.put(sample.row, &[1]);
        sample
    }

    pub fn put(&mut self, at: usize, value: &[u8]) {
        self.octets[at..at + value.len()].copy_from_slice(value);
    }

    fn hold(&mut self, place: usize, status: u8) {
        let at = offset(place);
        self.put(at, &[status, 1, 3, 0]);
        self.put(at + 4, &destination(place));
        self.put(at + 10, &NEXT_HOP);
        self.put(at + 16, &9u32.to_le_bytes());
        self.put(at + 20, &40u32.to_le_bytes());
        self.put(at + 24, &5000u64.to_le_bytes());
    }

    /// Makes the row one of unknown number: number 0, hop count 1, next hop equal to destination.
    pub fn unknown(&mut self, status: u8) {
        self.put(self.row, &[status, 0, 1, 0]);
        self.octets
            .copy_within(self.row + 4..self.row + 10, self.row + 10);
        self.put(self.row + 16, &[0; 4]);
    }

    pub fn free(&mut self) {
        self.put(self.row, &[0; 32]);
    }

    pub fn row_destination(&self) -> [u8; 6] {
        self.octets[self.row + 4..self.row + 10].try_into().unwrap()
    }
}
