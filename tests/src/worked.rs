//! What the cases worked out by hand share: tables written octet by octet, and calls that must
//! leave exactly the table and the frames that were worked out.

use crate::answers::ACCEPTED;
use crate::fence::{Fence, Side};
use crate::implementation::Implementation;
use crate::library::Outcome;
use crate::stand_ins::both;

pub type Address = [u8; 6];

pub const OWN: Address = [2, 0, 0, 0, 0, 1];
pub const ALL_ONES: Address = [0xFF; 6];
pub const ZERO: Address = [0; 6];
pub const GROUP: Address = [3, 0, 0, 0, 0, 9];

/// The address of no point.
pub const STRANGER: Address = [2, 0, 0, 0, 1, 1];

pub const LAST_CLOCK: u64 = (1 << 48) - 1;
pub const LEAST_OUTPUT: usize = 1560;

/// Each case is tried on both of these outputs. An octet that a call fails to write differs from
/// what is expected in at least one of them.
const OUTPUTS: [(usize, u8); 2] = [(LEAST_OUTPUT, 0xA5), (LEAST_OUTPUT + 217, 0x5A)];

/// Returns the address of a point by its number. The first is OWN.
pub const fn address(point: usize) -> Address {
    [2, 0, 0, 0, 0, 1 + point as u8]
}

/// The fields of a row in the order of its octets, without the zero octet.
#[derive(Clone, Copy)]
pub struct Row {
    pub status: u8,
    pub known: u8,
    pub hop_count: u8,
    pub destination: Address,
    pub next_hop: Address,
    pub number: u32,
    pub metric: u32,
    pub expiry: u64,
}

pub const FREE: Row = Row {
    status: 0,
    known: 0,
    hop_count: 0,
    destination: ZERO,
    next_hop: ZERO,
    number: 0,
    metric: 0,
    expiry: 0,
};

impl Row {
    /// Returns a neighbour's row of unknown number, as it is made while only the link is known.
    pub fn unknown(self, metric: u32) -> Row {
        Row {
            known: 0,
            hop_count: 1,
            next_hop: self.destination,
            number: 0,
            metric,
            ..self
        }
    }

    fn octets(&self) -> Vec<u8> {
        [
            &[self.status, self.known, self.hop_count, 0][..],
            &self.destination,
            &self.next_hop,
            &self.number.to_le_bytes(),
            &self.metric.to_le_bytes(),
            &self.expiry.to_le_bytes(),
        ]
        .concat()
    }
}

/// Returns a table of OWN with the given counters, latest clock and rows.
pub fn table(number: u32, request_id: u32, latest_clock: u64, rows: &[Row]) -> Vec<u8> {
    let mut octets = [
        &OWN[..],
        &[0; 2],
        &number.to_le_bytes(),
        &request_id.to_le_bytes(),
        &latest_clock.to_le_bytes(),
        &[0; 8],
    ]
    .concat();
    for row in rows {
        octets.extend(row.octets());
    }
    octets
}

/// A call with its operands, on a table and an output.
pub type Call<'a> = &'a dyn Fn(&Implementation, &mut [u8], &mut [u8]) -> Outcome;

/// Both implementations, on either side of a fence, must accept, leave the table `after`, write
/// these frames and nothing beyond them.
pub fn accepted(what: &str, before: &[u8], call: Call, after: &[u8], frames: &[Vec<u8>]) {
    let written = frames.concat();
    let expected = Outcome {
        answer: ACCEPTED,
        frames: frames.len() as u32,
        octets: written.len() as u32,
    };
    for (length, blank) in OUTPUTS {
        let mut output = vec![blank; length];
        output[..written.len()].copy_from_slice(&written);
        let after = After {
            outcome: expected,
            table: after,
            output: &output,
        };
        leaves(what, before, &vec![blank; length], call, &after);
    }
}

/// Both implementations must refuse with that number and change nothing.
pub fn refused(what: &str, before: &[u8], output: &[u8], call: Call, answer: u32) {
    let outcome = Outcome {
        answer,
        frames: 0,
        octets: 0,
    };
    let unchanged = After {
        outcome,
        table: before,
        output,
    };
    leaves(what, before, output, call, &unchanged);
}

/// Both implementations must refuse with that number and change nothing, although the output is
/// long enough.
pub fn refused_with_room(what: &str, before: &[u8], call: Call, answer: u32) {
    refused(what, before, &[0xA5; LEAST_OUTPUT], call, answer);
}

/// What a call must return, and the octets it must leave.
struct After<'a> {
    outcome: Outcome,
    table: &'a [u8],
    output: &'a [u8],
}

fn leaves(what: &str, table: &[u8], output: &[u8], call: Call, after: &After) {
    let (tables, outputs) = (&mut Fence::build(), &mut Fence::build());
    for by in both() {
        for side in Side::BOTH {
            let table = tables.lend(table, side);
            let output = outputs.lend(output, side);
            let found = call(by, table, output);
            let name = by.name;
            assert_eq!(found, after.outcome, "{what}: {name}, {side:?}");
            assert_eq!(table, after.table, "{what}: table by {name}, {side:?}");
            assert_eq!(output, after.output, "{what}: output by {name}, {side:?}");
        }
    }
}

/// Returns the frame of a RREQ that OWN originates, to all ones. A destination is flags, address
/// and number.
pub fn rreq(
    flags: u8,
    request_id: u32,
    number: u32,
    lifetime: u32,
    destinations: &[(u8, Address, u32)],
) -> Vec<u8> {
    let count = destinations.len() as u8;
    let mut frame = [
        &ALL_ONES[..],
        &[130, 26 + 11 * count, flags, 0, 31],
        &request_id.to_le_bytes(),
        &OWN,
        &number.to_le_bytes(),
        &lifetime.to_le_bytes(),
        &[0; 4],
        &[count],
    ]
    .concat();
    for (flags, address, number) in destinations {
        frame.extend([&[*flags][..], address, &number.to_le_bytes()].concat());
    }
    frame
}

/// Returns the frame of a RANN that OWN originates, to all ones.
pub fn rann(flags: u8, number: u32, lifetime: u32) -> Vec<u8> {
    [
        &ALL_ONES[..],
        &[126, 21, flags, 0, 31],
        &OWN,
        &number.to_le_bytes(),
        &lifetime.to_le_bytes(),
        &[0; 4],
    ]
    .concat()
}

/// Returns the frame of a RERR with flags 0, to all ones.
pub fn rerr(destinations: &[(Address, u32)]) -> Vec<u8> {
    let count = destinations.len() as u8;
    let mut frame = [&ALL_ONES[..], &[132, 2 + 10 * count, 0, count]].concat();
    for (address, number) in destinations {
        frame.extend([&address[..], &number.to_le_bytes()].concat());
    }
    frame
}

/// A counter before and after its step.
pub const STEPS: [(u32, u32); 8] = [
    (0, 1),
    (7, 8),
    (0xFF, 0x100),
    (0xFFFF, 0x1_0000),
    (0xFF_FFFF, 0x100_0000),
    (0x7FFF_FFFF, 0x8000_0000),
    (0xFFFF_FFFE, 0xFFFF_FFFF),
    (0xFFFF_FFFF, 0),
];
