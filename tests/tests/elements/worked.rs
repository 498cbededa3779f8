//! One small element of each type, octet by octet, with the numbers and the frame that
//! docs/PROTOCOL.md, 'Elements', gives it. They are asked of the library and the reference.

use hwmp_tests::answers::ACCEPTED;
use hwmp_tests::fence::{Fence, Side};
use hwmp_tests::probe::Probe;

use crate::asking::{BOTH, TO, UNTOUCHED, read};

const RANN: [u8; 23] = [
    126, 21, // ID, Length
    0x81, 3, 30, // flags, hop count, TTL
    0x02, 0x11, 0x22, 0x33, 0x44, 0x55, // originator
    0x01, 0x02, 0x03, 0x04, // number
    0xE8, 0x03, 0x00, 0x00, // lifetime
    0x28, 0x00, 0x00, 0x80, // metric
];
const RANN_NUMBERS: [u64; 9] = [
    126,
    21,
    0x81,
    3,
    30,
    0x5544_3322_1102,
    0x0403_0201,
    1000,
    0x8000_0028,
];

const RREQ: [u8; 50] = [
    130, 48, // ID, Length
    0x06, 4, 29, // flags, hop count, TTL
    0x11, 0x12, 0x13, 0x14, // request ID
    0x02, 0x21, 0x22, 0x23, 0x24, 0x25, // originator
    0x31, 0x32, 0x33, 0x34, // number
    0x41, 0x42, 0x43, 0x44, // lifetime
    0x51, 0x52, 0x53, 0x54, // metric
    2,    // N
    0x01, // flags
    0x62, 0x61, 0x63, 0x64, 0x65, 0x66, // destination
    0x71, 0x72, 0x73, 0x74, // number
    0xFE, // flags
    0x82, 0x81, 0x83, 0x84, 0x85, 0x86, // destination
    0xFF, 0xFF, 0xFF, 0xFF, // number
];
const RREQ_NUMBERS: [u64; 17] = [
    130,
    48,
    0x06,
    4,
    29,
    0x1413_1211,
    0x2524_2322_2102,
    0x3433_3231,
    0x4443_4241,
    0x5453_5251,
    2,
    0x01,
    0x6665_6463_6162,
    0x7473_7271,
    0xFE,
    0x8685_8483_8182,
    0xFFFF_FFFF,
];

const RREP: [u8; 54] = [
    131, 52, // ID, Length
    0x00, 255, 2, // flags, hop count, TTL
    0x02, 0x11, 0x12, 0x13, 0x14, 0x15, // destination
    0x21, 0x22, 0x23, 0x24, // number
    0x31, 0x32, 0x33, 0x34, // lifetime
    0x41, 0x42, 0x43, 0x44, // metric
    0x52, 0x51, 0x53, 0x54, 0x55, 0x56, // source
    0x61, 0x62, 0x63, 0x64, // source number
    2,    // N
    0x72, 0x71, 0x73, 0x74, 0x75, 0x76, 0x81, 0x82, 0x83, 0x84, // address, number
    0xFF, 0xFF, 0xFF, 0xFF, 0xFF, 0xFF, 0x00, 0x00, 0x00, 0x80, // the same again
];
const RREP_NUMBERS: [u64; 16] = [
    131,
    52,
    0x00,
    255,
    2,
    0x1514_1312_1102,
    0x2423_2221,
    0x3433_3231,
    0x4443_4241,
    0x5655_5453_5152,
    0x6463_6261,
    2,
    0x7675_7473_7172,
    0x8483_8281,
    0xFFFF_FFFF_FFFF,
    0x8000_0000,
];

const RERR: [u8; 14] = [
    132, 12, // ID, Length
    0xA5, 1, // flags, N
    0x12, 0x11, 0x13, 0x14, 0x15, 0x16, 0x21, 0x22, 0x23, 0x24, // destination, number
];
const RERR_NUMBERS: [u64; 6] = [132, 12, 0xA5, 1, 0x1615_1413_1112, 0x2423_2221];

const WORKED: [(&[u8], &[u64]); 4] = [
    (&RANN, &RANN_NUMBERS),
    (&RREQ, &RREQ_NUMBERS),
    (&RREP, &RREP_NUMBERS),
    (&RERR, &RERR_NUMBERS),
];

/// Reads and writes an element whose numbers are known.
fn accepted(by: &Probe, element: &[u8], expected: &[u64]) {
    let name = by.name;
    let (answer, numbers) = read(by, element);
    let (found, beyond) = numbers.split_at(expected.len());
    assert_eq!((answer, found), (ACCEPTED, expected), "{element:?}: {name}");
    let left_alone = beyond.iter().all(|&number| number == UNTOUCHED);
    assert!(left_alone, "{element:?}: numbers beyond by the {name}");
    for singly in [0, 1] {
        let mut out = vec![0xA5; 3 + 6 + element.len() + 3];
        let answer = by.write(element, &TO, &mut out, 3, singly);
        assert_eq!(answer, ACCEPTED, "write {element:?} by the {name}");
        let guard: &[u8] = &[0xA5; 3];
        let frame = [guard, &TO, element, guard].concat();
        assert_eq!(out, frame, "write {element:?} by the {name}");
    }
}

#[test]
fn worked_elements_have_these_numbers_and_frames() {
    for by in BOTH {
        for (element, numbers) in WORKED {
            accepted(by, element, numbers);
        }
        // A reply without dependents.
        let mut lone = RREP[..34].to_vec();
        let mut numbers = RREP_NUMBERS[..12].to_vec();
        (lone[1], lone[33], numbers[1], numbers[11]) = (32, 0, 32, 0);
        accepted(by, &lone, &numbers);
    }
    println!("one element of each type, and a RREP without dependents");
}

/// Where each worked element has flags: which element, the octet, and the place among its numbers.
const FLAGS: [(usize, usize, usize); 6] = [
    (0, 2, 2),
    (1, 2, 2),
    (1, 28, 11),
    (1, 39, 14),
    (2, 2, 2),
    (3, 2, 2),
];

#[test]
fn reserved_bits_are_kept() {
    for by in BOTH {
        for (worked, octet, number) in FLAGS {
            let (element, numbers) = WORKED[worked];
            for flags in 0..=255 {
                let (mut element, mut numbers) = (element.to_vec(), numbers.to_vec());
                element[octet] = flags;
                numbers[number] = flags.into();
                accepted(by, &element, &numbers);
            }
        }
    }
    println!("flags of each type: all 256 values read and written as they are");
}

/// Tries every output up to a little more than the frame, and every place in it and just beyond.
#[test]
fn a_frame_is_written_where_it_fits() {
    let fence = &mut Fence::build();
    let mut written = 0;
    for (element, _) in WORKED {
        let frame = 6 + element.len();
        for room in 0..frame + 5 {
            for at in (0..room + 3).chain(huge_places(room, frame)) {
                let fits = at <= room && room - at >= frame;
                write_or_not(element, room, at, fits, fence);
                written += usize::from(fits);
            }
        }
    }
    println!("at every place of every output a frame that fits is written, else 2: {written} fit");
    // With 0 to 4 octets to spare there are 1 to 5 places, for each of the four elements.
    assert_eq!(written, 4 * (1 + 2 + 3 + 4 + 5));
}

fn write_or_not(element: &[u8], room: usize, at: usize, fits: bool, fence: &mut Fence) {
    let before = vec![0xA5; room];
    let (answer, expected) = if fits {
        let rest = &before[at + 6 + element.len()..];
        (0, [&before[..at], &TO, element, rest].concat())
    } else {
        (2, before.clone())
    };
    for (by, side) in BOTH
        .into_iter()
        .flat_map(|by| Side::BOTH.map(|side| (by, side)))
    {
        let out = fence.lend(&before, side);
        let found = by.write(element, &TO, out, at, 0);
        let case = (room, at, side, element);
        assert_eq!(found, answer, "{case:?} by the {}", by.name);
        assert_eq!(out, expected, "{case:?} by the {}", by.name);
    }
}

/// Returns places that would be small if sums wrapped or were cut to fewer bits.
fn huge_places(room: usize, frame: usize) -> impl Iterator<Item = usize> {
    let round = [0, 1, room, frame, frame + 1].map(|back| usize::MAX - back);
    let cut = [1 << 16, 1 << 31, 1 << 32, 1 << 63, isize::MAX as usize];
    round.into_iter().chain(cut)
}
