//! The table of docs/PROTOCOL.md, 'Table': fields, their places, and what makes octets a legal
//! table.

use super::octets::{field, put};
use super::{Address, HopCount, Metric, RequestId, SequenceNumber};

pub const HEAD_OCTETS: usize = 32;
pub const ROW_OCTETS: usize = 32;
pub const MAX_ROWS: usize = 128;
pub const CLOCK_MAX: u64 = (1 << 48) - 1;
pub const EXPIRY_MAX: u64 = (1 << 48) + (1 << 32);

pub const FREE: u8 = 0;
pub const VALID: u8 = 1;
pub const INVALIDATED: u8 = 2;

/// The clauses that octets of a table's length can break.
#[derive(Clone, Copy, Debug, PartialEq, Eq)]
pub enum Flaw {
    OwnAddressNotIndividual,
    HeadZeroOctets,
    LatestClock,
    Status,
    FreeRowNotZero,
    NumberKnown,
    RowZeroOctet,
    DestinationNotIndividual,
    DestinationIsOwn,
    NextHopNotIndividual,
    NextHopIsOwn,
    Metric,
    Expiry,
    UnknownWithNumber,
    UnknownWithHopCount,
    UnknownWithNextHop,
    DestinationTwice,
}

impl Flaw {
    pub const ALL: [Flaw; 17] = [
        Flaw::OwnAddressNotIndividual,
        Flaw::HeadZeroOctets,
        Flaw::LatestClock,
        Flaw::Status,
        Flaw::FreeRowNotZero,
        Flaw::NumberKnown,
        Flaw::RowZeroOctet,
        Flaw::DestinationNotIndividual,
        Flaw::DestinationIsOwn,
        Flaw::NextHopNotIndividual,
        Flaw::NextHopIsOwn,
        Flaw::Metric,
        Flaw::Expiry,
        Flaw::UnknownWithNumber,
        Flaw::UnknownWithHopCount,
        Flaw::UnknownWithNextHop,
        Flaw::DestinationTwice,
    ];
}

fn ensure(holds: bool, flaw: Flaw) -> Result<(), Flaw> {
    if holds { Ok(()) } else { Err(flaw) }
}

#[derive(Clone, Copy, Debug, Default, PartialEq, Eq)]
pub struct Head {
    pub own: Address,
    pub zero_after_own: [u8; 2],
    pub number: SequenceNumber,
    pub request_id: RequestId,
    pub latest_clock: u64,
    pub zero_at_end: [u8; 8],
}

impl Head {
    pub fn decode(octets: &[u8; HEAD_OCTETS]) -> Head {
        Head {
            own: Address(field(octets, 0)),
            zero_after_own: field(octets, 6),
            number: SequenceNumber(u32::from_le_bytes(field(octets, 8))),
            request_id: RequestId(u32::from_le_bytes(field(octets, 12))),
            latest_clock: u64::from_le_bytes(field(octets, 16)),
            zero_at_end: field(octets, 24),
        }
    }

    pub fn encode(&self) -> [u8; HEAD_OCTETS] {
        let mut octets = [0; HEAD_OCTETS];
        put(&mut octets, 0, self.own.0);
        put(&mut octets, 6, self.zero_after_own);
        put(&mut octets, 8, self.number.0.to_le_bytes());
        put(&mut octets, 12, self.request_id.0.to_le_bytes());
        put(&mut octets, 16, self.latest_clock.to_le_bytes());
        put(&mut octets, 24, self.zero_at_end);
        octets
    }

    /// Returns the head with the next own number, which a new element takes.
    pub fn numbered(self) -> Head {
        Head {
            number: self.number.next(),
            ..self
        }
    }

    /// Returns the head with the next own number and the next request ID.
    pub fn requested(self) -> Head {
        Head {
            request_id: self.request_id.next(),
            ..self.numbered()
        }
    }

    fn check(&self) -> Result<(), Flaw> {
        ensure(self.own.is_individual(), Flaw::OwnAddressNotIndividual)?;
        let zeros = self.zero_after_own == [0; 2] && self.zero_at_end == [0; 8];
        ensure(zeros, Flaw::HeadZeroOctets)?;
        ensure(self.latest_clock <= CLOCK_MAX, Flaw::LatestClock)
    }
}

#[derive(Clone, Copy, Debug, Default, PartialEq, Eq)]
pub struct Row {
    pub status: u8,
    pub number_known: u8,
    pub hop_count: HopCount,
    pub zero: u8,
    pub destination: Address,
    pub next_hop: Address,
    pub number: SequenceNumber,
    pub metric: Metric,
    pub expiry: u64,
}

impl Row {
    pub fn decode(octets: &[u8; ROW_OCTETS]) -> Row {
        Row {
            status: octets[0],
            number_known: octets[1],
            hop_count: HopCount(octets[2]),
            zero: octets[3],
            destination: Address(field(octets, 4)),
            next_hop: Address(field(octets, 10)),
            number: SequenceNumber(u32::from_le_bytes(field(octets, 16))),
            metric: Metric(u32::from_le_bytes(field(octets, 20))),
            expiry: u64::from_le_bytes(field(octets, 24)),
        }
    }

    pub fn encode(&self) -> [u8; ROW_OCTETS] {
        let mut octets = [0; ROW_OCTETS];
        octets[0] = self.status;
        octets[1] = self.number_known;
        octets[2] = self.hop_count.0;
        octets[3] = self.zero;
        put(&mut octets, 4, self.destination.0);
        put(&mut octets, 10, self.next_hop.0);
        put(&mut octets, 16, self.number.0.to_le_bytes());
        put(&mut octets, 20, self.metric.0.to_le_bytes());
        put(&mut octets, 24, self.expiry.to_le_bytes());
        octets
    }

    pub fn is_held(&self) -> bool {
        self.status == VALID || self.status == INVALIDATED
    }

    pub fn is_active(&self, clock: u64) -> bool {
        self.status == VALID && clock < self.expiry
    }

    pub fn has_known_number(&self) -> bool {
        self.number_known == 1
    }

    /// Returns the row after its next hop was lost.
    pub fn broken(self) -> Row {
        if self.has_known_number() {
            self.invalidated().raised(self.number.next())
        } else {
            self.invalidated()
        }
    }

    pub fn invalidated(self) -> Row {
        Row {
            status: INVALIDATED,
            ..self
        }
    }

    /// Returns the row with this number and the largest metric.
    pub fn raised(self, number: SequenceNumber) -> Row {
        Row {
            number,
            metric: Metric::MAX,
            ..self
        }
    }

    fn check(&self, own: Address) -> Result<(), Flaw> {
        match self.status {
            FREE => ensure(*self == Row::default(), Flaw::FreeRowNotZero),
            VALID | INVALIDATED => self.check_held(own),
            _ => Err(Flaw::Status),
        }
    }

    fn check_held(&self, own: Address) -> Result<(), Flaw> {
        ensure(self.number_known <= 1, Flaw::NumberKnown)?;
        ensure(self.zero == 0, Flaw::RowZeroOctet)?;
        ensure(
            self.destination.is_individual(),
            Flaw::DestinationNotIndividual,
        )?;
        ensure(self.destination != own, Flaw::DestinationIsOwn)?;
        ensure(self.next_hop.is_individual(), Flaw::NextHopNotIndividual)?;
        ensure(self.next_hop != own, Flaw::NextHopIsOwn)?;
        ensure(self.metric.0 >= 1, Flaw::Metric)?;
        ensure(self.expiry <= EXPIRY_MAX, Flaw::Expiry)?;
        if self.number_known == 0 {
            self.check_unknown()?;
        }
        Ok(())
    }

    /// A row of unknown number belongs to a neighbour: one hop, straight to it.
    fn check_unknown(&self) -> Result<(), Flaw> {
        ensure(self.number.0 == 0, Flaw::UnknownWithNumber)?;
        ensure(self.hop_count.0 == 1, Flaw::UnknownWithHopCount)?;
        ensure(self.next_hop == self.destination, Flaw::UnknownWithNextHop)
    }
}

/// Octets of a table's length, cut into head and rows.
pub struct Table<'a> {
    head: &'a [u8; HEAD_OCTETS],
    rows: &'a [[u8; ROW_OCTETS]],
}

impl<'a> Table<'a> {
    /// Returns None if the length is not 32 + 32R with R from 1 to 128.
    pub fn cut(octets: &'a [u8]) -> Option<Table<'a>> {
        let (head, rest) = octets.split_first_chunk()?;
        let (rows, remainder) = rest.as_chunks();
        let fits = remainder.is_empty() && (1..=MAX_ROWS).contains(&rows.len());
        fits.then_some(Table { head, rows })
    }

    pub fn head(&self) -> Head {
        Head::decode(self.head)
    }

    pub fn rows(&self) -> impl Iterator<Item = Row> {
        self.rows.iter().map(Row::decode)
    }

    /// Checks that the octets are a legal table (refusal 21). If not, returns a clause that they
    /// break.
    pub fn check(&self) -> Result<(), Flaw> {
        let head = self.head();
        head.check()?;
        for (place, row) in self.rows().enumerate() {
            row.check(head.own)?;
            let twice = row.is_held() && self.holds_before(place, row.destination);
            ensure(!twice, Flaw::DestinationTwice)?;
        }
        Ok(())
    }

    fn holds_before(&self, place: usize, destination: Address) -> bool {
        self.rows()
            .take(place)
            .any(|row| row.is_held() && row.destination == destination)
    }

    /// Returns the held row of a destination and its place among the rows.
    pub fn row_for(&self, destination: Address) -> Option<(usize, Row)> {
        self.rows()
            .enumerate()
            .find(|(_, row)| row.is_held() && row.destination == destination)
    }

    /// Returns the row of a destination if it is active.
    pub fn active_row_for(&self, destination: Address, clock: u64) -> Option<(usize, Row)> {
        self.row_for(destination)
            .filter(|(_, row)| row.is_active(clock))
    }

    /// Returns the number known for a destination, whatever the status of its row.
    pub fn known_number(&self, destination: Address) -> Option<SequenceNumber> {
        self.row_for(destination)
            .filter(|(_, row)| row.has_known_number())
            .map(|(_, row)| row.number)
    }

    /// Returns the places of the free rows, lowest first.
    pub fn free_places(&self) -> impl Iterator<Item = usize> {
        let rows = self.rows.iter().enumerate();
        rows.filter(|(_, row)| row[0] == FREE)
            .map(|(place, _)| place)
    }
}

/// Writes a head into its place.
pub fn write_head(octets: &mut [u8], head: &Head) {
    octets[..HEAD_OCTETS].copy_from_slice(&head.encode());
}

/// Returns the places of the rows.
pub fn rows_mut(octets: &mut [u8]) -> &mut [[u8; ROW_OCTETS]] {
    octets[HEAD_OCTETS..].as_chunks_mut().0
}

/// Writes a row into its place.
pub fn write_row(octets: &mut [u8], place: usize, row: &Row) {
    rows_mut(octets)[place] = row.encode();
}
