use super::list::{self, NumberedAddress};
use super::{Numbers, lay_fixed, lay_numbers};
use crate::reference::octets::{field, put};
use crate::reference::{Address, HopCount, Metric, SequenceNumber};

/// A route reply.
#[derive(Clone, Copy, Debug, PartialEq, Eq)]
pub struct Rrep<'a> {
    pub flags: u8,
    pub hop_count: HopCount,
    pub ttl: u8,
    pub destination: Address,
    pub number: SequenceNumber,
    pub lifetime: u32,
    pub metric: Metric,
    pub source: Address,
    pub source_number: SequenceNumber,
    pub(in crate::reference) dependents: &'a [[u8; NumberedAddress::OCTETS]],
}

/// The octets between Length and list. The count octet is the last of them.
const FIXED: usize = 32;

impl<'a> Rrep<'a> {
    pub const ID: u8 = 131;

    pub(super) fn read(fields: &'a [u8]) -> Option<Rrep<'a>> {
        let (fields, list) = fields.split_first_chunk::<FIXED>()?;
        let count = fields[31];
        if count > 22 {
            return None;
        }
        Some(Rrep {
            flags: fields[0],
            hop_count: HopCount(fields[1]),
            ttl: fields[2],
            destination: Address(field(fields, 3)),
            number: SequenceNumber(u32::from_le_bytes(field(fields, 9))),
            lifetime: u32::from_le_bytes(field(fields, 13)),
            metric: Metric(u32::from_le_bytes(field(fields, 17))),
            source: Address(field(fields, 21)),
            source_number: SequenceNumber(u32::from_le_bytes(field(fields, 27))),
            dependents: list::cut(list, count)?,
        })
    }

    /// The list part of the octets that were read.
    pub fn list(&self) -> &'a [u8] {
        self.dependents.as_flattened()
    }

    pub fn dependents(&self) -> impl ExactSizeIterator<Item = NumberedAddress> + Clone {
        self.dependents.iter().map(NumberedAddress::decode)
    }

    pub(super) fn length(&self) -> usize {
        FIXED + self.list().len()
    }

    pub(super) fn numbers(&self, numbers: &mut Numbers) {
        let fixed: [u64; 12] = [
            Self::ID.into(),
            self.length() as u64,
            self.flags.into(),
            self.hop_count.0.into(),
            self.ttl.into(),
            self.destination.number(),
            self.number.0.into(),
            self.lifetime.into(),
            self.metric.0.into(),
            self.source.number(),
            self.source_number.0.into(),
            self.dependents.len() as u64,
        ];
        list::lay_numbers(lay_numbers(numbers, fixed), self.dependents());
    }

    pub(super) fn write(&self, element: &mut [u8]) {
        let mut fixed = [0; 2 + FIXED];
        put(&mut fixed, 0, [Self::ID, self.length() as u8]);
        put(&mut fixed, 2, [self.flags, self.hop_count.0, self.ttl]);
        put(&mut fixed, 5, self.destination.0);
        put(&mut fixed, 11, self.number.0.to_le_bytes());
        put(&mut fixed, 15, self.lifetime.to_le_bytes());
        put(&mut fixed, 19, self.metric.0.to_le_bytes());
        put(&mut fixed, 23, self.source.0);
        put(&mut fixed, 29, self.source_number.0.to_le_bytes());
        put(&mut fixed, 33, [self.dependents.len() as u8]);
        lay_fixed(element, fixed).copy_from_slice(self.list());
    }

    /// Judges the dependents as if they were the destinations of a RERR, only for the comparison. A
    /// point forwards dependents unread.
    pub(super) fn faults(&self, given: Address) -> u32 {
        list::faults_of_individuals(self.dependents(), given)
    }
}
