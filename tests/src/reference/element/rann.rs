use super::{Numbers, lay_fixed, lay_numbers};
use crate::reference::octets::{field, put};
use crate::reference::{Address, HopCount, Metric, SequenceNumber};

/// A root announcement.
#[derive(Clone, Copy, Debug, PartialEq, Eq)]
pub struct Rann {
    pub flags: u8,
    pub hop_count: HopCount,
    pub ttl: u8,
    pub originator: Address,
    pub number: SequenceNumber,
    pub lifetime: u32,
    pub metric: Metric,
}

impl Rann {
    pub const ID: u8 = 126;
    pub(super) const LENGTH: usize = 21;

    pub(super) fn read(fields: &[u8]) -> Option<Rann> {
        let fields: &[u8; Self::LENGTH] = fields.try_into().ok()?;
        Some(Rann {
            flags: fields[0],
            hop_count: HopCount(fields[1]),
            ttl: fields[2],
            originator: Address(field(fields, 3)),
            number: SequenceNumber(u32::from_le_bytes(field(fields, 9))),
            lifetime: u32::from_le_bytes(field(fields, 13)),
            metric: Metric(u32::from_le_bytes(field(fields, 17))),
        })
    }

    pub(super) fn numbers(&self, numbers: &mut Numbers) {
        let fixed: [u64; 9] = [
            Self::ID.into(),
            Self::LENGTH as u64,
            self.flags.into(),
            self.hop_count.0.into(),
            self.ttl.into(),
            self.originator.number(),
            self.number.0.into(),
            self.lifetime.into(),
            self.metric.0.into(),
        ];
        lay_numbers(numbers, fixed);
    }

    pub(super) fn write(&self, element: &mut [u8]) {
        let mut fixed = [0; 2 + Self::LENGTH];
        put(&mut fixed, 0, [Self::ID, Self::LENGTH as u8]);
        put(&mut fixed, 2, [self.flags, self.hop_count.0, self.ttl]);
        put(&mut fixed, 5, self.originator.0);
        put(&mut fixed, 11, self.number.0.to_le_bytes());
        put(&mut fixed, 15, self.lifetime.to_le_bytes());
        put(&mut fixed, 19, self.metric.0.to_le_bytes());
        lay_fixed(element, fixed);
    }
}
