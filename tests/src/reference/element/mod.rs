//! The elements of docs/PROTOCOL.md, 'Elements'. An element is read from octets and borrows their
//! list part, returns its numbers, and is written as a frame.

pub(super) mod list;
mod rann;
mod rerr;
mod rrep;
mod rreq;

use super::refusal::ensure;
use super::{Address, Refusal};
use crate::answers::{BAD_COUNT, ELEMENT_LENGTH, SHORT_OUTPUT, UNKNOWN_ID};

pub use list::{Destination, NumberedAddress};
pub use rann::Rann;
pub use rerr::Rerr;
pub use rrep::Rrep;
pub use rreq::Rreq;

/// The most numbers an element has: a RREQ has 11, and 3 for each of its 20 destinations.
pub const MOST_NUMBERS: usize = 11 + 3 * 20;
pub type Numbers = [u64; MOST_NUMBERS];

const ID_AND_LENGTH: usize = 2;
const RECEIVER: usize = 6;

#[derive(Clone, Copy, Debug, PartialEq, Eq)]
pub enum Element<'a> {
    Rann(Rann),
    Rreq(Rreq<'a>),
    Rrep(Rrep<'a>),
    Rerr(Rerr<'a>),
}

/// How the destinations of a RREQ or a RERR are written. Both ways give the same octets.
#[derive(Clone, Copy, Debug, PartialEq, Eq)]
pub enum Destinations {
    AsOnePart,
    Singly,
}

impl<'a> Element<'a> {
    pub fn read(octets: &'a [u8]) -> Result<Element<'a>, Refusal> {
        let [id, length, fields @ ..] = octets else {
            return Err(ELEMENT_LENGTH);
        };
        ensure(usize::from(*length) == fields.len(), ELEMENT_LENGTH)?;
        let element = match *id {
            Rann::ID => Rann::read(fields).map(Element::Rann),
            Rreq::ID => Rreq::read(fields).map(Element::Rreq),
            Rrep::ID => Rrep::read(fields).map(Element::Rrep),
            Rerr::ID => Rerr::read(fields).map(Element::Rerr),
            _ => return Err(UNKNOWN_ID),
        };
        element.ok_or(BAD_COUNT)
    }

    /// Returns the number of octets that follow the Length octet.
    pub fn length(&self) -> usize {
        match self {
            Element::Rann(_) => Rann::LENGTH,
            Element::Rreq(rreq) => rreq.length(),
            Element::Rrep(rrep) => rrep.length(),
            Element::Rerr(rerr) => rerr.length(),
        }
    }

    /// Writes every number of the element in the order of its octets, with an address as one
    /// number. Places beyond are left as they are.
    pub fn numbers(&self, numbers: &mut Numbers) {
        match self {
            Element::Rann(rann) => rann.numbers(numbers),
            Element::Rreq(rreq) => rreq.numbers(numbers),
            Element::Rrep(rrep) => rrep.numbers(numbers),
            Element::Rerr(rerr) => rerr.numbers(numbers),
        }
    }

    /// Writes receiver and element into the output, from place `at` on, and returns how many octets
    /// they have. Refuses with 2 if they do not fit there. A call judges its output once, before
    /// this function.
    pub fn write(
        &self,
        to: Address,
        out: &mut [u8],
        at: usize,
        destinations: Destinations,
    ) -> Result<usize, Refusal> {
        let octets = RECEIVER + ID_AND_LENGTH + self.length();
        let frame = out
            .get_mut(at..)
            .and_then(|rest| rest.get_mut(..octets))
            .ok_or(SHORT_OUTPUT)?;
        let (receiver, element) = frame.split_at_mut(RECEIVER);
        receiver.copy_from_slice(&to.0);
        match self {
            Element::Rann(rann) => rann.write(element),
            Element::Rreq(rreq) => rreq.write(element, destinations),
            Element::Rrep(rrep) => rrep.write(element),
            Element::Rerr(rerr) => rerr.write(element, destinations),
        }
        Ok(octets)
    }

    /// Returns the faults of the addresses in the list, as a sum of the numbers in `list`.
    pub fn faults(&self, given: Address) -> u32 {
        match self {
            Element::Rann(_) => 0,
            Element::Rreq(rreq) => rreq.faults(given),
            Element::Rrep(rrep) => rrep.faults(given),
            Element::Rerr(rerr) => rerr.faults(given),
        }
    }
}

/// Writes the octets before the list and returns those of the list.
fn lay_fixed<const N: usize>(element: &mut [u8], fixed: [u8; N]) -> &mut [u8] {
    let (place, list) = element
        .split_first_chunk_mut()
        .expect("the frame has room for the whole element");
    *place = fixed;
    list
}

/// Writes the numbers before the list and returns the places of the rest.
fn lay_numbers<const N: usize>(numbers: &mut Numbers, fixed: [u64; N]) -> &mut [u64] {
    let (places, rest) = numbers
        .split_first_chunk_mut()
        .expect("there is a place for every number");
    *places = fixed;
    rest
}
