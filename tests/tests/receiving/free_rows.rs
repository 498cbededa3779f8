//! Refusal 27 applies exactly if more new rows are needed than rows are free, wherever the free
//! rows lie.

use hwmp_tests::answers::NO_ROOM;
use hwmp_tests::worked::{Address, FREE, Row};

use crate::cases::{
    END, LEARNT, NEIGHBOUR, PATH, active, expired, invalidated, learns, rann, refuses,
};

/// Which of the two rows that the element fills is already held: the subject's (`End`) or the
/// transmitter's.
#[derive(Clone, Copy, Debug)]
enum Held {
    Neither,
    End,
    Transmitter,
    Both,
}

/// Returns a table that is full except for the places `free`. The rows that are held take its first
/// or last places.
fn rows(count: usize, free: &[usize], held: Held, first: bool) -> Option<Vec<Row>> {
    let end = Row {
        number: 8,
        ..invalidated(active(END))
    };
    let transmitter = expired(NEIGHBOUR);
    let held = match held {
        Held::Neither => vec![],
        Held::End => vec![end],
        Held::Transmitter => vec![transmitter],
        Held::Both => vec![transmitter, end],
    };
    let mut rows: Vec<Row> = (0..count).map(|place| active(destination(place))).collect();
    let mut places: Vec<usize> = (0..count).filter(|place| !free.contains(place)).collect();
    if !first {
        places.reverse();
    }
    if places.len() < held.len() {
        return None;
    }
    for (place, row) in places.into_iter().zip(held) {
        rows[place] = row;
    }
    for &place in free {
        rows[place] = FREE;
    }
    Some(rows)
}

fn destination(place: usize) -> Address {
    [0x30, 0, 0, 0, 0, place as u8]
}

/// Puts the row of an address into its own place, or into the first free one.
fn put(rows: &mut [Row], row: Row) -> bool {
    let own = rows
        .iter()
        .position(|held| held.destination == row.destination);
    let free = rows.iter().position(|held| held.status == 0);
    match own.or(free) {
        Some(place) => rows[place] = row,
        None => return false,
    }
    true
}

fn try_with(count: usize, free: &[usize]) -> [usize; 2] {
    let mut outcomes = [0; 2];
    for held in [Held::Neither, Held::End, Held::Transmitter, Held::Both] {
        let needed = match held {
            Held::Neither => 2,
            Held::End | Held::Transmitter => 1,
            Held::Both => 0,
        };
        for first in [true, false] {
            let Some(before) = rows(count, free, held, first) else {
                continue;
            };
            let what = format!("{held:?} held of {count}, free {free:?}");
            if needed > free.len() {
                refuses(&what, &before, &rann(0, PATH), NO_ROOM);
                outcomes[1] += 1;
            } else {
                let mut after = before.clone();
                assert!(
                    put(&mut after, LEARNT) && put(&mut after, NEIGHBOUR),
                    "{what}"
                );
                learns(&what, PATH, &before, &after);
                outcomes[0] += 1;
            }
        }
    }
    outcomes
}

/// Tries no free place, each single place, and pairs: all pairs in small tables, and in large
/// tables those with an end or the middle.
#[test]
fn just_if_more_are_needed_than_free() {
    let mut outcomes = [0; 2];
    let mut try_free = |count: usize, free: &[usize]| {
        let [accepted, refused] = try_with(count, free);
        outcomes[0] += accepted;
        outcomes[1] += refused;
    };
    for count in [1, 2, 3, 4, 7, 128] {
        try_free(count, &[]);
        for one in 0..count {
            try_free(count, &[one]);
            for other in one + 1..count {
                let at_end = one == 0 || one == 63 || other == 127;
                if count < 128 || at_end {
                    try_free(count, &[one, other]);
                }
            }
        }
    }
    println!(
        "free rows: {} accepted, {} refused with 27",
        outcomes[0], outcomes[1]
    );
}
