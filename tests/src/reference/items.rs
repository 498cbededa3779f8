//! The items of an ask: up to 20 destinations, each flags and address.

use super::element::list::{Entries, has_twice};
use super::element::{Destination, Rreq};
use super::refusal::ensure;
use super::table::Table;
use super::{Address, Refusal};
use crate::answers::{BAD_ADDRESS, BAD_COUNT, BAD_LIST};

const ITEM_OCTETS: usize = 7;

struct Item {
    flags: u8,
    address: Address,
}

impl Item {
    fn decode(&[flags, a, b, c, d, e, f]: &[u8; ITEM_OCTETS]) -> Item {
        Item {
            flags,
            address: Address([a, b, c, d, e, f]),
        }
    }
}

pub struct Items<'a> {
    items: &'a [[u8; ITEM_OCTETS]],
}

impl<'a> Items<'a> {
    pub fn cut(octets: &'a [u8]) -> Result<Items<'a>, Refusal> {
        let (items, remainder) = octets.as_chunks();
        let fits = remainder.is_empty() && (1..=Rreq::MOST).contains(&items.len());
        ensure(fits, BAD_COUNT)?;
        Ok(Items { items })
    }

    fn iter(&self) -> impl Iterator<Item = Item> + Clone {
        self.items.iter().map(Item::decode)
    }

    pub fn addresses(&self) -> impl Iterator<Item = Address> + Clone {
        self.iter().map(|item| item.address)
    }

    /// Makes the checks that need no table. All ones is not an individual address. The point marks
    /// unknown numbers itself, so no item may have the mark.
    pub fn check(&self) -> Result<(), Refusal> {
        let individual = self.addresses().all(Address::is_individual);
        ensure(individual, BAD_ADDRESS)?;
        let most = Destination::DO | Destination::RF;
        let flags_fit = self.iter().all(|item| item.flags <= most);
        let fits = flags_fit && !has_twice(self.addresses());
        ensure(fits, BAD_LIST)
    }

    /// Returns the destinations of the request, each with the number that the table knows for it.
    pub fn destinations(&self, table: &Table) -> Entries<{ Destination::OCTETS }, { Rreq::MOST }> {
        let mut destinations = Entries::new();
        for Item { flags, address } in self.iter() {
            let destination = Destination::new(flags, address, table.known_number(address));
            destinations.push(destination.encode());
        }
        destinations
    }
}
