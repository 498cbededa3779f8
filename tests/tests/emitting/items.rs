//! The items of an ask: how many there may be, and the faults of each and of all together.

use hwmp_tests::answers::{ABOUT_ITSELF, BAD_ADDRESS, BAD_COUNT, BAD_LIST};
use hwmp_tests::fence::{Fence, Side};
use hwmp_tests::worked::{
    ALL_ONES, Address, GROUP, OWN, ZERO, accepted, refused_with_room, rreq, table,
};

use crate::asking::{A, ABSENT, UNKNOWN, ask, octets, rows};

/// Asks, with own number 5 and request ID 7, for items whose numbers are unknown. Both must accept.
fn asked(what: &str, items: &[(u8, Address)]) {
    asked_with(what, &octets(items), items);
}

/// Asks in the same way, with the octets of the items as they are lent.
fn asked_with(what: &str, lent: &[u8], items: &[(u8, Address)]) {
    let destinations: Vec<_> = items
        .iter()
        .map(|&(flags, address)| (flags | UNKNOWN, address, 0))
        .collect();
    let (before, after) = (table(5, 7, 5000, &rows()), table(6, 8, 5000, &rows()));
    let frame = rreq(0, 8, 6, 1000, &destinations);
    accepted(what, &before, &ask(1000, lent), &after, &[frame]);
}

fn not_asked(what: &str, items: &[(u8, Address)], answer: u32) {
    let before = table(5, 7, 5000, &rows());
    refused_with_room(what, &before, &ask(1000, &octets(items)), answer);
}

/// Returns addresses that no row has, as many as an ask can name or more.
fn absent(count: usize) -> Vec<(u8, Address)> {
    (0..count as u8)
        .map(|place| (place % 4, [0x0C, 0, 0, 0, place / 5, place % 5]))
        .collect()
}

/// Returns `items` with another item in one place.
fn with(items: &[(u8, Address)], place: usize, item: (u8, Address)) -> Vec<(u8, Address)> {
    let mut items = items.to_vec();
    items[place] = item;
    items
}

/// The frame has 6 + 2 + 26 + 11N octets: from 45 for one item to 254 for 20. Items lie next to a
/// fence, so that reading a cut item to its end would end the run.
#[test]
fn one_to_twenty_whole_items_are_asked_for() {
    let items = octets(&absent(40));
    let lengths: [usize; 20] = std::array::from_fn(|place| 7 * (place + 1));
    let fence = &mut Fence::build();
    for length in 0..=items.len() {
        let lent = &*fence.lend(&items[..length], Side::After);
        let what = format!("{length} octets of items");
        if lengths.contains(&length) {
            asked_with(&what, lent, &absent(length / 7));
        } else {
            refused_with_room(
                &what,
                &table(5, 7, 5000, &rows()),
                &ask(1000, lent),
                BAD_COUNT,
            );
        }
    }
    println!(
        "ask: of 0 to {} octets of items {} lengths fit, the others are refused with 8",
        items.len(),
        lengths.len()
    );
}

/// The point marks unknown numbers itself, so an item with the mark is refused too.
#[test]
fn item_flags_go_up_to_3() {
    for (count, place) in [(1, 0), (20, 0), (20, 10), (20, 19)] {
        for flags in 0..=255 {
            let items = with(&absent(count), place, (flags, ABSENT));
            let what = format!("flags {flags} in place {place} of {count}");
            if flags <= 3 {
                asked(&what, &items);
            } else {
                not_asked(&what, &items, BAD_LIST);
            }
        }
    }
    println!("ask: flags 0 to 3 accepted, 4 to 255 refused with 10");
}

#[test]
fn only_individual_addresses_are_asked_for() {
    let refused = [
        GROUP,
        ALL_ONES,
        ZERO,
        [1, 0, 0, 0, 0, 0],
        [0xFF, 0xFF, 0xFF, 0xFF, 0xFF, 0x7F],
    ];
    let inside = [
        [0xFE, 0xFF, 0xFF, 0xFF, 0xFF, 0xFF],
        [0, 0, 0, 0, 0, 1],
        [0, 0x80, 0, 0, 0, 0],
        [0xFE, 0, 0, 0, 0, 0],
    ];
    for count in [1, 2, 20] {
        for place in 0..count {
            for address in refused {
                let what = format!("{address:?} in place {place} of {count}");
                not_asked(
                    &what,
                    &with(&absent(count), place, (0, address)),
                    BAD_ADDRESS,
                );
            }
            for address in inside {
                let what = format!("{address:?} in place {place} of {count}");
                asked(&what, &with(&absent(count), place, (0, address)));
            }
        }
    }
    println!("ask: group addresses, all ones and all zero refused with 9 in every place");
}

/// Each pair of places has one address, with the same or other flags. Addresses that differ in one
/// octet are accepted.
#[test]
fn a_destination_twice_is_refused_with_10() {
    let items = absent(20);
    for first in 0..20 {
        for second in first + 1..20 {
            let (_, address) = items[first];
            for flags in [items[first].0, items[second].0] {
                let what = format!("places {first} and {second} alike");
                not_asked(&what, &with(&items, second, (flags, address)), BAD_LIST);
            }
        }
    }
    for octet in 0..6 {
        let mut nearly = items[3].1;
        nearly[octet] ^= 0x80;
        let what = format!("alike but for octet {octet}");
        asked(&what, &with(&items, 17, (0, nearly)));
    }
    println!("ask: each of 190 pairs of places alike refused with 10");
}

#[test]
fn the_own_address_is_refused_with_24() {
    for count in [1, 2, 20] {
        for place in 0..count {
            let what = format!("the own address in place {place} of {count}");
            not_asked(&what, &with(&absent(count), place, (0, OWN)), ABOUT_ITSELF);
            for octet in 0..6 {
                let mut nearly = OWN;
                nearly[octet] ^= 0x80;
                let items = with(&absent(count), place, (0, nearly));
                asked(&format!("nearly {what}, octet {octet}"), &items);
            }
        }
    }
    println!("ask: the own address refused with 24 in every place");
}

/// Each check runs over all items before the next check begins.
#[test]
fn several_grounds_give_the_lowest() {
    let lists: [(&[(u8, Address)], u32); 6] = [
        (&[(0, GROUP), (0, GROUP)], BAD_ADDRESS),
        (&[(4, A), (0, GROUP)], BAD_ADDRESS),
        (&[(0, OWN), (0, GROUP)], BAD_ADDRESS),
        (&[(0, A), (0, A), (0, ZERO)], BAD_ADDRESS),
        (&[(0, OWN), (0, OWN)], BAD_LIST),
        (&[(0, OWN), (4, A)], BAD_LIST),
    ];
    for (items, answer) in lists {
        not_asked(&format!("{items:?}"), items, answer);
    }
    println!("ask: {} lists with several grounds", lists.len());
}
