//! What a walk refuses, and in which order.

use hwmp_tests::answers::{
    ACCEPTED, BAD_ADDRESS, BAD_LIST, CLOCK_TOO_LARGE, NO_ROUTE, NOT_A_TABLE, OLD_CLOCK,
    TABLE_LENGTH,
};
use hwmp_tests::library::Walked;
use hwmp_tests::stand_ins::both;
use hwmp_tests::worked::{Address, FREE, GROUP, LAST_CLOCK, STRANGER, ZERO, address};

use crate::cases::{CLOCK, gives, point, row};

/// Returns three points. The first leads to the last through the second.
fn three_points() -> Vec<Vec<u8>> {
    let destination = address(2);
    vec![
        point(0, &[row(destination, address(1)), FREE]),
        point(1, &[FREE, row(destination, destination)]),
        point(2, &[FREE, FREE]),
    ]
}

const WAY: [Address; 2] = [address(0), address(2)];

/// A refusal carries no hops.
fn refuses(what: &str, tables: &[Vec<u8>], way: [Address; 2], refusal: u32) {
    gives(what, tables, way, (refusal, 0));
}

#[test]
fn the_points_are_in_order() {
    gives("sound", &three_points(), WAY, (ACCEPTED, 2));
}

/// A walk takes 1 to 16 tables of one length, as many as the count says; otherwise it answers 1.
/// Zeros are not tables, and WAY starts at no address among them, so what has the right length is
/// refused with 10.
#[test]
fn only_whole_tables_as_many_as_the_count_have_a_length() {
    let octets = vec![0; 17 * (32 + 32 * 128) + 64];
    let mut fits = 0_u32;
    for count in 0..=17 {
        let most = 16.min(count);
        for length in 0..=most * (32 + 32 * 128) + 64 {
            let right = (1..=16).contains(&count)
                && (1..=128).any(|rows| length == count * (32 + 32 * rows));
            fits += u32::from(right);
            let answer = if right { BAD_LIST } else { TABLE_LENGTH };
            for by in both() {
                let tables = &octets[..length];
                let walked = (by.walk)(tables, count as u32, 0, &WAY[0], &WAY[1]);
                let expected = Walked { answer, hops: 0 };
                assert_eq!(walked, expected, "{count} in {length}: {}", by.name);
            }
        }
    }
    assert_eq!(fits, 16 * 128);
    println!("counts 0 to 17: {fits} lengths fit");
}

/// The whole count is judged, and the octets that it requires are not computed with too few bits.
#[test]
fn a_count_beyond_16_is_refused() {
    for (rows, count) in [(1, 1), (3, 1), (3, 2), (1, 16), (128, 16)] {
        let tables: Vec<_> = (0..count)
            .map(|place| point(place, &vec![FREE; rows]))
            .collect();
        let octets = tables.concat();
        let way = [address(0), address(0)];
        gives("the count", &tables, way, (ACCEPTED, 0));
        let wrong = [0, count - 1, count + 1, 17, 255, 256, 257, 1 << 16];
        let wrong = wrong.into_iter().map(|wrong| wrong as u32);
        let same_in_low_bits = (5..32).map(|bit| count as u32 | 1 << bit);
        for wrong in wrong.chain(same_in_low_bits).chain([u32::MAX]) {
            // Another count can also fit the octets, with fewer and longer tables or more and
            // shorter ones. Their addresses would then be read at other places.
            let length = octets.len() / 32;
            let suits = (1..=16).contains(&wrong)
                && length.is_multiple_of(wrong as usize)
                && (2..=129).contains(&(length / wrong as usize));
            if suits {
                continue;
            }
            for by in both() {
                let walked = (by.walk)(&octets, wrong, CLOCK, &way[0], &way[1]);
                let refused = Walked {
                    answer: TABLE_LENGTH,
                    hops: 0,
                };
                assert_eq!(walked, refused, "{wrong} for {count}: {}", by.name);
            }
        }
    }
}

/// 10: the start is not among the points, whatever the destination.
#[test]
fn a_start_must_be_a_point() {
    let tables = three_points();
    for start in [STRANGER, GROUP, ZERO, [0xFF; 6]] {
        refuses("no point", &tables, [start, WAY[1]], BAD_LIST);
    }
    refuses(
        "its own destination",
        &tables,
        [STRANGER, STRANGER],
        BAD_LIST,
    );
    for octet in 0..6 {
        for bit in 0..8 {
            let mut near = address(0);
            near[octet] ^= 1 << bit;
            let known = (0..3).any(|place| address(place) == near);
            if !known {
                refuses("near", &tables, [near, WAY[1]], BAD_LIST);
            }
        }
    }
}

/// 10: two points have equal addresses, on the way or not.
#[test]
fn two_points_may_not_have_one_address() {
    for count in 2..=16 {
        let tables: Vec<_> = (0..count).map(|place| point(place, &[FREE])).collect();
        let way = [address(0), address(0)];
        gives("all different", &tables, way, (ACCEPTED, 0));
        for one in 0..count {
            for other in 0..one {
                let mut tables = tables.clone();
                tables[one][..6].copy_from_slice(&address(other));
                refuses("two alike", &tables, [address(0), address(0)], BAD_LIST);
            }
        }
    }
    let twice = [three_points(), three_points()].concat();
    refuses("all twice", &twice, WAY, BAD_LIST);
}

/// 10 is judged by the first six octets of each table, before 21.
#[test]
fn addresses_are_judged_before_tables() {
    let nothing = vec![0; 96];
    let sound = point(0, &[FREE, FREE]);
    let zeros = [sound.clone(), nothing.clone(), nothing.clone()];
    refuses("zero twice", &zeros, WAY, BAD_LIST);
    let zero = [sound.clone(), nothing];
    refuses("zero once", &zero, [address(0), WAY[1]], NOT_A_TABLE);
    refuses("from zero", &zero, [ZERO, WAY[1]], NOT_A_TABLE);
    let mut of_a_group = point(1, &[FREE, FREE]);
    of_a_group[..6].copy_from_slice(&GROUP);
    let group = [sound, of_a_group];
    refuses("from a group", &group, [GROUP, WAY[1]], NOT_A_TABLE);
    refuses("from another group", &group, [[0xFF; 6], WAY[1]], BAD_LIST);
}

/// 9: the destination of a walk must be an individual address.
#[test]
fn a_destination_must_be_individual() {
    for destination in [GROUP, ZERO, [0xFF; 6], [1, 0, 0, 0, 0, 0]] {
        refuses("group", &three_points(), [WAY[0], destination], BAD_ADDRESS);
        refuses(
            "from itself",
            &three_points(),
            [destination; 2],
            BAD_ADDRESS,
        );
    }
    let individual = [0, 0, 0, 0, 0, 1];
    gives(
        "least",
        &three_points(),
        [WAY[0], individual],
        (NO_ROUTE, 0),
    );
}

/// 21 and 22 are judged for every table, met on the way or not, even if start and destination are
/// one point.
#[test]
fn every_table_is_judged() {
    for count in 1..=16 {
        let tables: Vec<_> = (0..count).map(|place| point(place, &[FREE])).collect();
        for spoilt in 0..count {
            let way = [address(0), address(0)];
            let mut damaged = tables.clone();
            damaged[spoilt][31] = 1;
            refuses("no table", &damaged, way, NOT_A_TABLE);
            let mut ahead = tables.clone();
            ahead[spoilt][16..24].copy_from_slice(&(CLOCK + 1).to_le_bytes());
            refuses("ahead", &ahead, way, OLD_CLOCK);
            let mut behind = tables.clone();
            behind[spoilt][16..24].copy_from_slice(&(CLOCK - 1).to_le_bytes());
            gives("behind", &behind, way, (ACCEPTED, 0));
            // 21 for a later table comes before 22 for an earlier one.
            for other in 0..count {
                let mut both = ahead.clone();
                both[other][31] = 1;
                refuses("ahead and no table", &both, way, NOT_A_TABLE);
            }
        }
    }
}

/// Every set of faults gives the lowest of them. Fault 10 is a start that is no point, or two
/// points with one address.
#[test]
fn the_lowest_fault_is_given() {
    let faults = [
        TABLE_LENGTH,
        CLOCK_TOO_LARGE,
        BAD_ADDRESS,
        BAD_LIST,
        NOT_A_TABLE,
        OLD_CLOCK,
    ];
    for chosen in 0_u32..1 << faults.len() {
        for start_is_no_point in [false, true] {
            let has = |fault| {
                let bit = faults.iter().position(|&known| known == fault);
                chosen >> bit.expect("a fault of a walk") & 1 == 1
            };
            let mut tables = three_points();
            tables[2][6] = has(NOT_A_TABLE).into();
            if has(BAD_LIST) && !start_is_no_point {
                tables[1][..6].copy_from_slice(&address(2));
            }
            let mut octets = tables.concat();
            octets.truncate(octets.len() - usize::from(has(TABLE_LENGTH)));
            let clock = match (has(CLOCK_TOO_LARGE), has(OLD_CLOCK)) {
                (true, _) => LAST_CLOCK + 1,
                (_, true) => CLOCK - 1,
                _ => CLOCK,
            };
            let start = if has(BAD_LIST) && start_is_no_point {
                STRANGER
            } else {
                WAY[0]
            };
            let destination = if has(BAD_ADDRESS) { GROUP } else { WAY[1] };
            let lowest = faults.into_iter().find(|&fault| has(fault));
            let expected = match lowest {
                Some(answer) => Walked { answer, hops: 0 },
                None => Walked {
                    answer: ACCEPTED,
                    hops: 2,
                },
            };
            for by in both() {
                let walked = (by.walk)(&octets, 3, clock, &start, &destination);
                assert_eq!(walked, expected, "faults {chosen:b}: {}", by.name);
            }
        }
    }
}

/// 3: the whole clock is judged.
#[test]
fn a_clock_above_the_last_is_refused() {
    let octets = three_points().concat();
    let beyond = (48..64).map(|bit| CLOCK | 1 << bit);
    for clock in beyond.chain([LAST_CLOCK + 1, u64::MAX]) {
        for by in both() {
            let walked = (by.walk)(&octets, 3, clock, &WAY[0], &WAY[1]);
            let refused = Walked {
                answer: CLOCK_TOO_LARGE,
                hops: 0,
            };
            assert_eq!(walked, refused, "{clock}: {}", by.name);
        }
    }
}
