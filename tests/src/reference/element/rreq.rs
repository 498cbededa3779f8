use super::list::{self, Destination};
use super::{Destinations, Numbers, lay_fixed, lay_numbers};
use crate::reference::octets::{field, put};
use crate::reference::{Address, HopCount, Metric, RequestId, SequenceNumber};

/// A route request.
#[derive(Clone, Copy, Debug, PartialEq, Eq)]
pub struct Rreq<'a> {
    pub flags: u8,
    pub hop_count: HopCount,
    pub ttl: u8,
    pub request_id: RequestId,
    pub originator: Address,
    pub number: SequenceNumber,
    pub lifetime: u32,
    pub metric: Metric,
    pub(in crate::reference) destinations: &'a [[u8; Destination::OCTETS]],
}

/// The octets between Length and list. The count octet is the last of them.
const FIXED: usize = 26;

impl<'a> Rreq<'a> {
    pub const ID: u8 = 130;
    pub const MOST: usize = 20;

    /// The flag 'unicast'.
    pub const UNICAST: u8 = 2;
    /// The flag 'reply wanted'.
    pub const REPLY_WANTED: u8 = 4;

    pub(super) fn read(fields: &'a [u8]) -> Option<Rreq<'a>> {
        let (fields, list) = fields.split_first_chunk::<FIXED>()?;
        let count = fields[25];
        if !(1..=Self::MOST).contains(&usize::from(count)) {
            return None;
        }
        Some(Rreq {
            flags: fields[0],
            hop_count: HopCount(fields[1]),
            ttl: fields[2],
            request_id: RequestId(u32::from_le_bytes(field(fields, 3))),
            originator: Address(field(fields, 7)),
            number: SequenceNumber(u32::from_le_bytes(field(fields, 13))),
            lifetime: u32::from_le_bytes(field(fields, 17)),
            metric: Metric(u32::from_le_bytes(field(fields, 21))),
            destinations: list::cut(list, count)?,
        })
    }

    /// The list part of the octets that were read.
    pub fn list(&self) -> &'a [u8] {
        self.destinations.as_flattened()
    }

    pub fn destinations(&self) -> impl ExactSizeIterator<Item = Destination> + Clone {
        self.destinations.iter().map(Destination::decode)
    }

    pub(super) fn length(&self) -> usize {
        FIXED + self.list().len()
    }

    pub(super) fn numbers(&self, numbers: &mut Numbers) {
        let fixed: [u64; 11] = [
            Self::ID.into(),
            self.length() as u64,
            self.flags.into(),
            self.hop_count.0.into(),
            self.ttl.into(),
            self.request_id.0.into(),
            self.originator.number(),
            self.number.0.into(),
            self.lifetime.into(),
            self.metric.0.into(),
            self.destinations.len() as u64,
        ];
        let (places, _) = lay_numbers(numbers, fixed).as_chunks_mut();
        for (place, destination) in places.iter_mut().zip(self.destinations()) {
            *place = [
                destination.flags.into(),
                destination.address.number(),
                destination.number.0.into(),
            ];
        }
    }

    pub(super) fn write(&self, element: &mut [u8], destinations: Destinations) {
        let mut fixed = [0; 2 + FIXED];
        put(&mut fixed, 0, [Self::ID, self.length() as u8]);
        put(&mut fixed, 2, [self.flags, self.hop_count.0, self.ttl]);
        put(&mut fixed, 5, self.request_id.0.to_le_bytes());
        put(&mut fixed, 9, self.originator.0);
        put(&mut fixed, 15, self.number.0.to_le_bytes());
        put(&mut fixed, 19, self.lifetime.to_le_bytes());
        put(&mut fixed, 23, self.metric.0.to_le_bytes());
        put(&mut fixed, 27, [self.destinations.len() as u8]);
        let list = lay_fixed(element, fixed);
        list::write(list, self.destinations, destinations, |entry| {
            Destination::decode(entry).encode()
        });
    }

    /// A RREQ may name all ones as well as individual addresses.
    pub(super) fn faults(&self, given: Address) -> u32 {
        let allowed = |address: Address| address.is_individual() || address == Address::ALL_ONES;
        let addresses = self.destinations().map(|destination| destination.address);
        list::faults(addresses, allowed, given)
    }
}
