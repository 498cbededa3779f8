use super::list::{self, NumberedAddress};
use super::{Destinations, Numbers, lay_fixed, lay_numbers};
use crate::reference::Address;

/// A route error.
#[derive(Clone, Copy, Debug, PartialEq, Eq)]
pub struct Rerr<'a> {
    pub flags: u8,
    pub(in crate::reference) destinations: &'a [[u8; NumberedAddress::OCTETS]],
}

/// The octets between Length and list: flags and count.
const FIXED: usize = 2;

impl<'a> Rerr<'a> {
    pub const ID: u8 = 132;
    pub const MOST: usize = 25;

    pub(super) fn read(fields: &'a [u8]) -> Option<Rerr<'a>> {
        let [flags, count, list @ ..] = fields else {
            return None;
        };
        if !(1..=Self::MOST).contains(&usize::from(*count)) {
            return None;
        }
        Some(Rerr {
            flags: *flags,
            destinations: list::cut(list, *count)?,
        })
    }

    /// The list part of the octets that were read.
    pub fn list(&self) -> &'a [u8] {
        self.destinations.as_flattened()
    }

    pub fn destinations(&self) -> impl ExactSizeIterator<Item = NumberedAddress> + Clone {
        self.destinations.iter().map(NumberedAddress::decode)
    }

    pub(super) fn length(&self) -> usize {
        FIXED + self.list().len()
    }

    pub(super) fn numbers(&self, numbers: &mut Numbers) {
        let fixed: [u64; 4] = [
            Self::ID.into(),
            self.length() as u64,
            self.flags.into(),
            self.destinations.len() as u64,
        ];
        list::lay_numbers(lay_numbers(numbers, fixed), self.destinations());
    }

    pub(super) fn write(&self, element: &mut [u8], destinations: Destinations) {
        let count = self.destinations.len() as u8;
        let fixed = [Self::ID, self.length() as u8, self.flags, count];
        let list = lay_fixed(element, fixed);
        list::write(list, self.destinations, destinations, |entry| {
            NumberedAddress::decode(entry).encode()
        });
    }

    pub(super) fn faults(&self, given: Address) -> u32 {
        list::faults_of_individuals(self.destinations(), given)
    }
}
