//! What the cases worked out by hand share.

use hwmp_tests::probe::{LIBRARY, Probe, REFERENCE};
use hwmp_tests::reference::element::{MOST_NUMBERS, Numbers};

pub const BOTH: [&Probe; 2] = [&LIBRARY, &REFERENCE];

/// The receiver of frames.
pub const TO: [u8; 6] = [2, 0, 0, 0, 0, 9];

/// An unlikely number, which shows which places were left alone.
pub const UNTOUCHED: u64 = 0xA5A5_5A5A_A5A5_5A5A;

pub fn read(by: &Probe, element: &[u8]) -> (u32, Numbers) {
    let mut numbers = [UNTOUCHED; MOST_NUMBERS];
    let answer = by.read(element, &mut numbers);
    (answer, numbers)
}
