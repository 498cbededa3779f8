//! What the cases worked out by hand share.

use hwmp_tests::elements::{framed, path_fields};
use hwmp_tests::implementation::Implementation;
use hwmp_tests::library::Outcome;
use hwmp_tests::worked::{Address, Row, accepted, refused_with_room, table};

/// The transmitter, the metric of its link, and the clock.
pub const T: Address = [0x0A, 0, 0, 0, 0, 1];
pub const LINK: u32 = 14;
pub const CLOCK: u64 = 5000;

/// The subject of the received path, and other addresses.
pub const END: Address = [0x0A, 0, 0, 0, 0, 2];
pub const A: Address = [0x0A, 0, 0, 0, 0, 0x0A];
pub const B: Address = [0x0A, 0, 0, 0, 0, 0x0B];
pub const C: Address = [0x0A, 0, 0, 0, 0, 0x0C];
pub const VIA: Address = [0x0A, 0, 0, 0, 0, 0x77];

/// The path that a RANN, a RREQ or a RREP tells of. `end` is the subject.
#[derive(Clone, Copy)]
pub struct Path {
    pub hop_count: u8,
    pub ttl: u8,
    pub end: Address,
    pub number: u32,
    pub lifetime: u32,
    pub metric: u32,
}

/// The path that is received unless a case says otherwise. With the link its metric is 39 and its
/// hop count 4, and its row expires at 6000.
pub const PATH: Path = Path {
    hop_count: 3,
    ttl: 5,
    end: END,
    number: 9,
    lifetime: 1000,
    metric: 25,
};

/// The path as it is forwarded.
pub const ONWARD: Path = Path {
    hop_count: 4,
    ttl: 4,
    metric: 39,
    ..PATH
};

/// The row that the path leaves.
pub const LEARNT: Row = Row {
    status: 1,
    known: 1,
    hop_count: 4,
    destination: END,
    next_hop: T,
    number: 9,
    metric: 39,
    expiry: 6000,
};

/// The transmitter's row as it is made.
pub const NEIGHBOUR: Row = Row {
    status: 1,
    known: 0,
    hop_count: 1,
    destination: T,
    next_hop: T,
    number: 0,
    metric: LINK,
    expiry: 6000,
};

/// Returns an active row of known number 9, through a neighbour that has no other part in the
/// cases.
pub const fn active(destination: Address) -> Row {
    Row {
        status: 1,
        known: 1,
        hop_count: 2,
        destination,
        next_hop: VIA,
        number: 9,
        metric: 40,
        expiry: 5500,
    }
}

/// Returns the row with an expiry that has just passed.
pub fn expired(row: Row) -> Row {
    Row {
        expiry: CLOCK,
        ..row
    }
}

pub fn invalidated(row: Row) -> Row {
    Row { status: 2, ..row }
}

impl Path {
    fn head(&self, flags: u8) -> [u8; 3] {
        [flags, self.hop_count, self.ttl]
    }

    fn body(&self) -> Vec<u8> {
        path_fields(self.end, self.number, self.lifetime, self.metric)
    }
}

pub fn rann(flags: u8, path: Path) -> Vec<u8> {
    framed(126, &[&path.head(flags)[..], &path.body()].concat())
}

pub const REQUEST_ID: u32 = 0x0A0B_0C0D;

/// The mark of a RREQ's destination: its number is 0 because no number is known.
pub const UNKNOWN: u8 = 4;

/// Returns a RREQ. A destination is flags, address and number.
pub fn rreq(flags: u8, path: Path, destinations: &[(u8, Address, u32)]) -> Vec<u8> {
    let mut fields = [
        &path.head(flags)[..],
        &REQUEST_ID.to_le_bytes(),
        &path.body(),
        &[destinations.len() as u8],
    ]
    .concat();
    for (flags, address, number) in destinations {
        fields.extend([&[*flags][..], address, &number.to_le_bytes()].concat());
    }
    framed(130, &fields)
}

pub const SOURCE_NUMBER: u32 = 0xA1B2_C3D4;

/// Returns a RREP on its way to its source.
pub fn rrep(flags: u8, path: Path, source: Address, dependents: &[(Address, u32)]) -> Vec<u8> {
    numbered_rrep(flags, path, (source, SOURCE_NUMBER), dependents)
}

/// Returns a RREP as a point makes it, with flags 0 and no dependents.
pub fn new_rrep(path: Path, source: Address, source_number: u32) -> Vec<u8> {
    numbered_rrep(0, path, (source, source_number), &[])
}

fn numbered_rrep(
    flags: u8,
    path: Path,
    source: (Address, u32),
    dependents: &[(Address, u32)],
) -> Vec<u8> {
    let fields = [
        &path.head(flags)[..],
        &path.body(),
        &numbered(&[source]),
        &[dependents.len() as u8],
        &numbered(dependents),
    ];
    framed(131, &fields.concat())
}

pub fn rerr(flags: u8, destinations: &[(Address, u32)]) -> Vec<u8> {
    let count = destinations.len() as u8;
    framed(
        132,
        &[&[flags, count][..], &numbered(destinations)].concat(),
    )
}

fn numbered(entries: &[(Address, u32)]) -> Vec<u8> {
    let entry = |(address, number): &(Address, u32)| [&address[..], &number.to_le_bytes()].concat();
    entries.iter().flat_map(entry).collect()
}

pub fn frame(to: Address, element: Vec<u8>) -> Vec<u8> {
    [&to[..], &element].concat()
}

pub fn receive(
    clock: u64,
    transmitter: Address,
    link_metric: u32,
    element: &[u8],
) -> impl Fn(&Implementation, &mut [u8], &mut [u8]) -> Outcome {
    move |by, table, output| (by.receive)(table, output, clock, &transmitter, link_metric, element)
}

/// Both implementations must accept. Own number 5 and request ID 7 stay, and the clock is stored.
pub fn accepts(what: &str, before: &[Row], element: &[u8], after: &[Row], frames: &[Vec<u8>]) {
    accepts_numbered(what, 5, before, element, 5, after, frames);
}

/// Both implementations must accept, with an own number that may change.
pub fn accepts_numbered(
    what: &str,
    number: u32,
    before: &[Row],
    element: &[u8],
    next: u32,
    after: &[Row],
    frames: &[Vec<u8>],
) {
    let (before, after) = (table(number, 7, 1000, before), table(next, 7, CLOCK, after));
    let call = receive(CLOCK, T, LINK, element);
    accepted(what, &before, &call, &after, frames);
}

pub fn refuses(what: &str, before: &[Row], element: &[u8], answer: u32) {
    let before = table(5, 7, 1000, before);
    refused_with_room(what, &before, &receive(CLOCK, T, LINK, element), answer);
}

/// A RANN whose TTL is 1 is not forwarded, so it shows only what is learnt.
pub fn learns(what: &str, path: Path, before: &[Row], after: &[Row]) {
    let path = Path { ttl: 1, ..path };
    accepts(what, before, &rann(0, path), after, &[]);
}
