use std::ops::Range;

use crate::random::Random;

/// How many octets on each side of the lent ones no call may touch.
const GUARD: usize = 64;
const GUARD_OCTET: u8 = 0xA5;

/// The same octets lent to both implementations, each from the middle of a larger buffer.
pub struct Pair {
    library: Vec<u8>,
    reference: Vec<u8>,
    lent: Range<usize>,
}

impl Pair {
    /// The octets start at any remainder modulo 16, because firmware may place them anywhere.
    pub fn new(octets: &[u8], random: &mut Random) -> Pair {
        let start = GUARD + random.below(16);
        let lent = start..start + octets.len();
        let mut buffer = vec![GUARD_OCTET; lent.end + GUARD];
        buffer[lent.clone()].copy_from_slice(octets);
        Pair {
            library: buffer.clone(),
            reference: buffer,
            lent,
        }
    }

    pub fn octets(&self) -> &[u8] {
        &self.reference[self.lent.clone()]
    }

    pub fn of_library(&mut self) -> &mut [u8] {
        &mut self.library[self.lent.clone()]
    }

    pub fn of_reference(&mut self) -> &mut [u8] {
        &mut self.reference[self.lent.clone()]
    }

    /// Returns the place of the first octet that differs, guards included. The lent octets begin at
    /// 0.
    pub fn difference(&self) -> Option<isize> {
        if self.library == self.reference {
            return None;
        }
        let differs = |(found, expected)| found != expected;
        let at = self.library.iter().zip(&self.reference).position(differs);
        at.map(|at| at as isize - self.lent.start as isize)
    }
}
