//! The calls that are timed: calls that check the whole table and then search it, one that is
//! refused early, the making of a fresh table, the calls that emit, and receiving.

mod calls;
mod receiving;

use hwmp_tests::answers::{ACCEPTED, NO_NEXT_HOP, NOT_A_TABLE, NOT_HELD, STALE};
use hwmp_tests::implementation::Implementation;
use hwmp_tests::random::Random;
use hwmp_tests::reference::LEAST_OUTPUT;
use hwmp_tests::tables;

use crate::timing::Call;

pub use calls::{CLOCK, LIFETIME};
pub use receiving::{LINK, largest_received};

/// Several tables in turn, so that the processor cannot predict every branch.
const TABLES: usize = 8;

#[derive(Clone, PartialEq)]
pub struct Input {
    pub table: Vec<u8>,
    /// The destination or neighbour asked about, or the transmitter.
    pub address: [u8; 6],
    pub items: Vec<u8>,
    pub element: Vec<u8>,
    pub output: Vec<u8>,
    /// The frames that the last call emitted.
    frames: u32,
}

pub struct Case {
    pub name: &'static str,
    pub answer: u32,
    pub call: Call<Implementation, Input>,
    /// Turns a full table into one that suits the case.
    prepare: fn(&mut Input, &mut Random),
    /// How many frames the call must emit, by the number of rows.
    frames: fn(usize) -> usize,
}

const fn silent(
    name: &'static str,
    answer: u32,
    call: Call<Implementation, Input>,
    prepare: fn(&mut Input, &mut Random),
) -> Case {
    Case {
        name,
        answer,
        call,
        prepare,
        frames: |_| 0,
    }
}

const fn emitting(
    name: &'static str,
    frames: fn(usize) -> usize,
    call: Call<Implementation, Input>,
    prepare: fn(&mut Input, &mut Random),
) -> Case {
    Case {
        name,
        answer: ACCEPTED,
        call,
        prepare,
        frames,
    }
}

fn nothing(_: &mut Input, _: &mut Random) {}

/// The calls that emit nothing. A forgotten row is put back for the next call, and the time
/// includes this repair.
pub const SILENT: [Case; 6] = [
    silent(
        "next hop, no such row",
        NO_NEXT_HOP,
        calls::next_hop,
        nothing,
    ),
    silent(
        "next hop, the last row",
        ACCEPTED,
        calls::next_hop,
        calls::want_last_row,
    ),
    silent("forget, no such row", NOT_HELD, calls::forget, nothing),
    silent(
        "forget the last row, mended",
        ACCEPTED,
        calls::forget_and_mend,
        calls::want_last_row,
    ),
    silent(
        "next hop, refused early",
        NOT_A_TABLE,
        calls::next_hop,
        calls::spoil_head,
    ),
    silent("fresh", ACCEPTED, calls::fresh, nothing),
];

/// The calls that emit. The last case also makes the lost rows valid again for the next call, and
/// its time includes this repair.
pub const EMITTING: [Case; 5] = [
    emitting("ask for 20", |_| 1, calls::ask, calls::name_20),
    emitting("announce", |_| 1, calls::announce, nothing),
    emitting("root request", |_| 1, calls::root_request, nothing),
    emitting(
        "break, no row lost",
        |_| 0,
        calls::report_break,
        calls::lead_elsewhere,
    ),
    emitting(
        "break, all lost, mended",
        |rows| rows.div_ceil(25),
        calls::break_and_mend,
        calls::lead_through_neighbour,
    ),
];

/// Receiving, with a full table that has rows for the subject and for the transmitter; in a table
/// of one row they are one address. After a call the number in the element is stepped, so that the
/// next call finds a newer one. After an error the rows are made valid again. Times include both.
pub const RECEIVING: [Case; 6] = [
    emitting("receive a RANN", |_| 1, receiving::newer, receiving::rann),
    emitting(
        "receive a RREP",
        |rows| usize::from(rows > 1),
        receiving::newer,
        receiving::rrep,
    ),
    emitting(
        "receive a RREQ for 1",
        |_| 1,
        receiving::newer,
        receiving::rreq_for_1,
    ),
    emitting(
        "receive a RREQ for 20",
        |rows| receiving::answered(rows) + 1,
        receiving::newer,
        receiving::rreq_for_20,
    ),
    emitting(
        "receive a RERR with 25",
        |_| 1,
        receiving::error_and_mend,
        receiving::rerr_with_25,
    ),
    silent(
        "receive a stale RANN",
        STALE,
        receiving::receive,
        receiving::stale_rann,
    ),
];

/// Returns a full table and an address for which it has no row.
fn full(rows: usize, random: &mut Random) -> Input {
    Input {
        table: tables::full(rows, random),
        address: tables::individual(random).0,
        items: Vec::new(),
        element: Vec::new(),
        output: vec![0; LEAST_OUTPUT],
        frames: 0,
    }
}

pub fn inputs(case: &Case, rows: usize, random: &mut Random) -> Vec<Input> {
    let mut input = || {
        let mut input = full(rows, random);
        (case.prepare)(&mut input, random);
        input
    };
    (0..TABLES).map(|_| input()).collect()
}

/// Returns the input that makes each call do the most: many rows that one break loses, and many
/// items.
pub fn largest(random: &mut Random) -> Input {
    let mut input = full(128, random);
    calls::name_20(&mut input, random);
    calls::lead_through_neighbour(&mut input, random);
    input
}

/// Times mean little unless all implementations do the same work. Each must give the answer and the
/// number of frames of the case, and all must leave the same octets. Each call is made twice,
/// because a timed call follows other calls.
pub fn confirm(case: &Case, rows: usize, inputs: &[Input], bys: &[&Implementation]) {
    for input in inputs {
        let mut outcomes = bys.iter().map(|by| {
            let mut input = input.clone();
            for _ in 0..2 {
                let answer = (case.call)(by, &mut input);
                assert_eq!(answer, case.answer, "{} by {}", case.name, by.name);
                let frames = input.frames as usize;
                assert_eq!(frames, (case.frames)(rows), "{} by {}", case.name, by.name);
            }
            input
        });
        let first = outcomes.next().expect("some implementation");
        assert!(outcomes.all(|outcome| outcome == first), "{}", case.name);
    }
}
