//! What follows a request: replies to the transmitter, and the request forwarded with the
//! destinations that are kept. Steps 1 and 2 leave the same two rows in every case.

use hwmp_tests::worked::{ALL_ONES, Address, FREE, OWN, Row, STEPS};

use crate::cases::{
    A, B, C, LEARNT, LINK, NEIGHBOUR, ONWARD, PATH, Path, T, UNKNOWN, VIA, accepts,
    accepts_numbered, active, expired, frame, invalidated, new_rrep, rreq,
};

const UNICAST: u8 = 2;
const REPLY_WANTED: u8 = 4;

/// With DO set, only the destination itself replies. With RF set, the destination is kept after a
/// reply. UNKNOWN is the mark, and all other bits are reserved.
const DO: u8 = 1;
const RF: u8 = 2;
const RESERVED: u8 = 0xF8;

type Asked = (u8, Address, u32);

/// Returns the reply for a path to `end` at this point. It goes back to the transmitter with the
/// lifetime, originator and originator's number of the request.
fn reply(end: Address, number: u32, hop_count: u8, metric: u32) -> Vec<u8> {
    let path = Path {
        hop_count,
        ttl: 31,
        end,
        number,
        lifetime: PATH.lifetime,
        metric,
    };
    frame(T, new_rrep(path, PATH.end, PATH.number))
}

fn own_reply(number: u32) -> Vec<u8> {
    reply(OWN, number, 0, 0)
}

/// Returns the reply from a row that `active` makes.
fn row_reply(destination: Address) -> Vec<u8> {
    reply(destination, 9, 2, 40)
}

fn onward(flags: u8, kept: &[Asked]) -> Vec<u8> {
    frame(ALL_ONES, rreq(flags, ONWARD, kept))
}

/// Receives the request on a table with these rows, which must stay.
fn answers(what: &str, rows: &[Row], flags: u8, asked: &[Asked], frames: &[Vec<u8>]) {
    let before = [&[FREE, FREE], rows].concat();
    let after = [&[LEARNT, NEIGHBOUR], rows].concat();
    accepts(what, &before, &rreq(flags, PATH, asked), &after, frames);
}

/// Own number before, number asked for, own number after and in the reply.
const OWN_NUMBERS: [(u32, u32, u32); 12] = [
    // P7 of docs/PROTOCOL.md, 'Edges'.
    (12, 40, 41),
    (12, 5, 13),
    (12, 12, 13),
    (12, 13, 14),
    (12, 11, 13),
    (0xFFFF_FFFF, 0, 1),
    (0, 0xFFFF_FFFF, 1),
    (0xFFFF_FFFF, 0xFFFF_FFFF, 0),
    (5, 0xFFFF_FFFF, 6),
    // Half the circle apart is not newer.
    (0, 0x8000_0000, 1),
    (0x8000_0000, 0, 0x8000_0001),
    (1, 0x8000_0000, 0x8000_0001),
];

/// The own number is raised and stepped, and the destination is struck out, whatever its flags.
/// Nothing is forwarded.
#[test]
fn a_point_replies_for_itself() {
    for (own, asked, next) in OWN_NUMBERS {
        for flags in [0, DO, RF, DO | RF, RESERVED] {
            let what = format!("{asked} asked of {own}, flags {flags}");
            replies_for_itself(&what, own, (flags, OWN, asked), next);
        }
    }
}

/// Receives a request for the own address alone. The own number must become `next`.
fn replies_for_itself(what: &str, own: u32, asked: Asked, next: u32) {
    let element = rreq(0, PATH, &[asked]);
    let (before, after) = ([FREE, FREE], [LEARNT, NEIGHBOUR]);
    accepts_numbered(
        what,
        own,
        &before,
        &element,
        next,
        &after,
        &[own_reply(next)],
    );
}

/// The own number steps by one, whatever a 0 would be to it: newer, older, equal or half the circle
/// apart. Without a mark a 0 is a number like any other.
#[test]
pub fn a_marked_0_does_not_move_the_own_number() {
    for (own, next) in STEPS.into_iter().chain([(3_000_000_000, 3_000_000_001)]) {
        for flags in [0, DO, RF, DO | RF, RESERVED, 0xFF].map(|flags| flags | UNKNOWN) {
            let what = format!("a marked 0 asked of {own}, flags {flags}");
            replies_for_itself(&what, own, (flags, OWN, 0), next);
        }
    }
    replies_for_itself("0 of 3,000,000,000", 3_000_000_000, (0, OWN, 0), 1);
}

/// All ones is kept. If a reply is wanted, the own number steps by one, whatever number stands next
/// to all ones, and whether or not it is marked.
#[test]
pub fn every_point_replies_if_a_reply_is_wanted() {
    let (before, after) = ([FREE, FREE], [LEARNT, NEIGHBOUR]);
    for (flags, wanted) in [
        (4, true),
        (5, true),
        (0xFD, true),
        (0, false),
        (0xF9, false),
    ] {
        for (mark, number) in [(0, 0), (0, 1000), (UNKNOWN, 0)] {
            let everyone = [(DO | RF | mark, ALL_ONES, number)];
            for (own, next) in STEPS {
                let what = format!("all ones, {number}, flags {flags}, own number {own}");
                let element = rreq(flags, PATH, &everyone);
                let goes_on = onward(flags, &everyone);
                let (next, frames) = match wanted {
                    true => (next, vec![own_reply(next), goes_on]),
                    false => (own, vec![goes_on]),
                };
                accepts_numbered(&what, own, &before, &element, next, &after, &frames);
            }
        }
    }
}

/// For other destinations the bit is ignored, and forwarded.
#[test]
fn reply_wanted_is_for_all_ones_only() {
    let asked = [(0, A, 0)];
    let frames = [onward(REPLY_WANTED, &asked)];
    answers("no row", &[], REPLY_WANTED, &asked, &frames);
}

/// The number asked for where the row has 9, and whether the row answers.
const ASKED_OF_9: [(u32, bool); 8] = [
    (9, true),
    (8, true),
    (10, false),
    (0, true),
    (0xFFFF_FFFF, true),
    (0x8000_0009, false),
    (0x8000_000A, true),
    (0x8000_0008, false),
];

/// An intermediate reply has the number, hop count and metric of the row. DO keeps the point from
/// replying. RF keeps the destination, then with DO set.
#[test]
fn a_row_answers_if_it_is_not_older() {
    for (number, fresh) in ASKED_OF_9 {
        for reserved in [0, 8, RESERVED] {
            let what = format!("{number} asked of 9, reserved bits {reserved}");
            answers_by_flags(&what, active(A), fresh, reserved, number);
        }
    }
}

/// Receives a request for A, with this number and these further flags, for each combination of DO
/// and RF. The row for A must answer if it is fresh.
fn answers_by_flags(what: &str, row: Row, fresh: bool, further: u8, number: u32) {
    for flags in [0, DO, RF, DO | RF].map(|flags| flags | further) {
        let from_row = reply(A, row.number, row.hop_count, row.metric);
        let kept = |flags| onward(0, &[(flags, A, number)]);
        let frames = match (fresh && flags & DO == 0, flags & RF != 0) {
            (false, _) => vec![kept(flags)],
            (true, false) => vec![from_row],
            (true, true) => vec![from_row, kept(flags | DO)],
        };
        let what = format!("{what}, flags {flags}");
        answers(&what, &[row], 0, &[(flags, A, number)], &frames);
    }
}

/// The number of a row, and whether the row answers if it is asked for with a 0 that is not marked.
const ASKED_WITH_0: [(u32, bool); 8] = [
    (0, true),
    (1, true),
    (9, true),
    (0x7FFF_FFFF, true),
    (0x8000_0000, false),
    (0x8000_0001, false),
    (3_000_000_000, false),
    (0xFFFF_FFFF, false),
];

/// A marked 0 is compared with no row. DO, RF and the reserved bits do what they do next to a
/// number, and the mark stays where the request is forwarded.
#[test]
pub fn a_marked_0_is_answered_from_any_known_number() {
    for (number, fresh) in ASKED_WITH_0 {
        let row = Row {
            number,
            ..active(A)
        };
        for reserved in [0, 8, RESERVED] {
            let what = format!("0 asked of {number}, reserved bits {reserved}");
            answers_by_flags(&what, row, fresh, reserved, 0);
            answers_by_flags(&what, row, true, reserved | UNKNOWN, 0);
        }
    }
}

#[test]
pub fn only_an_active_row_of_known_number_answers() {
    let row = active(A);
    let unknown = row.unknown(40);
    let rows = [
        ("expired", expired(row)),
        ("invalidated", invalidated(row)),
        ("unknown number", unknown),
        ("unknown, invalidated", invalidated(unknown)),
    ];
    for (what, row) in rows {
        for flags in [0, RF, UNKNOWN, UNKNOWN | RF] {
            let asked = [(flags, A, 0)];
            answers(what, &[row], 0, &asked, &[onward(0, &asked)]);
        }
    }
}

/// A point that knows a number and may not answer forwards mark and 0 as they are.
#[test]
pub fn a_known_number_is_not_filled_in() {
    let row = active(A);
    let rows = [
        ("DO", DO, row),
        ("expired", 0, expired(row)),
        ("invalidated", 0, invalidated(row)),
    ];
    for (what, flags, row) in rows {
        let asked = [(flags | UNKNOWN, A, 0)];
        answers(what, &[row], 0, &asked, &[onward(0, &asked)]);
    }
    let asked = [(DO | UNKNOWN, A, 0)];
    let unicast = [frame(VIA, rreq(UNICAST, ONWARD, &asked))];
    answers("unicast", &[row], UNICAST, &asked, &unicast);
}

/// The row may have the largest metric and hop count, although every receiver refuses the reply.
#[test]
fn an_intermediate_reply_has_what_the_row_has() {
    let rows = [
        (255, 0xFFFF_FFFF, 0xFFFF_FFFF),
        (0, 1, 0),
        (7, 0x0102_0304, 0x0506_0708),
    ];
    for (hop_count, metric, number) in rows {
        let row = Row {
            hop_count,
            metric,
            number,
            ..active(A)
        };
        let frames = [reply(A, number, hop_count, metric)];
        answers("a row", &[row], 0, &[(0, A, number)], &frames);
    }
}

/// Replies and kept destinations stay in order. The request comes last, with fewer entries.
#[test]
fn destinations_are_taken_in_order() {
    let rows = [active(C), active(A), expired(active(VIA)), active(B)];
    let new: Address = [0x0A, 0, 0, 0, 0, 0x55];
    let asked = [
        (0, new, 4),
        (0, C, 9),
        (RF, A, 8),
        (0, OWN, 0),
        (RF | DO, B, 1),
        (0x80, VIA, 9),
    ];
    let kept = [
        (0, new, 4),
        (RF | DO, A, 8),
        (RF | DO, B, 1),
        (0x80, VIA, 9),
    ];
    let frames = [
        row_reply(C),
        row_reply(A),
        own_reply(6),
        onward(0xF8, &kept),
    ];
    let before = [&[FREE, FREE][..], &rows].concat();
    let after = [&[LEARNT, NEIGHBOUR][..], &rows].concat();
    let element = rreq(0xF8, PATH, &asked);
    accepts_numbered("six", 5, &before, &element, 6, &after, &frames);
}

/// Each destination has its own mark. A mark changes nothing for the destinations around it.
#[test]
pub fn marked_destinations_stand_beside_others() {
    let far = |destination| Row {
        number: 3_000_000_000,
        ..active(destination)
    };
    let far_reply = |destination| reply(destination, 3_000_000_000, 2, 40);
    let new: Address = [0x0A, 0, 0, 0, 0, 0x55];
    let asked = [
        (0, A, 0),
        (UNKNOWN, B, 0),
        (UNKNOWN, OWN, 0),
        (0, new, 0),
        (UNKNOWN | RF, C, 0),
        (UNKNOWN, VIA, 0),
    ];
    let kept = [
        (0, A, 0),
        (0, new, 0),
        (UNKNOWN | RF | DO, C, 0),
        (UNKNOWN, VIA, 0),
    ];
    let rows = [far(A), far(B), far(C), far(VIA).unknown(40)];
    let frames = [
        far_reply(B),
        own_reply(3_000_000_001),
        far_reply(C),
        onward(0, &kept),
    ];
    let before = [&[FREE, FREE][..], &rows].concat();
    let after = [&[LEARNT, NEIGHBOUR][..], &rows].concat();
    let element = rreq(0, PATH, &asked);
    let (own, next) = (3_000_000_000, 3_000_000_001);
    accepts_numbered("six", own, &before, &element, next, &after, &frames);
}

/// Twenty replies and a request with twenty destinations are the most that receive emits: 20 times
/// 40 octets and 254.
#[test]
fn twenty_destinations_are_answered_and_go_on() {
    let destination = |place: u8| [0x20, 0, 0, 0, 0, place];
    let places: Vec<u8> = (0..20).collect();
    let rows: Vec<Row> = places
        .iter()
        .map(|&place| active(destination(place)))
        .collect();
    let ask = |flags| {
        places
            .iter()
            .map(|&place| (flags, destination(place), 9))
            .collect()
    };
    let (asked, kept): (Vec<Asked>, Vec<Asked>) = (ask(RF), ask(RF | DO));
    let mut frames: Vec<_> = places
        .iter()
        .map(|&place| row_reply(destination(place)))
        .collect();
    frames.push(onward(0, &kept));
    assert_eq!(frames.concat().len(), 20 * 40 + 254);
    answers("twenty", &rows, 0, &asked, &frames);
}

/// The rows are those after steps 1 and 2. A destination that is the transmitter is answered from
/// the row that was just renewed, with one hop and the metric of the link.
#[test]
fn rows_are_those_after_the_path_is_learnt() {
    let before = Row {
        hop_count: 6,
        metric: 15,
        ..active(T)
    };
    let renewed = Row {
        hop_count: 1,
        next_hop: T,
        metric: LINK,
        expiry: 6000,
        ..before
    };
    for row in [before, expired(before), invalidated(before)] {
        for asked in [(0, T, 9), (UNKNOWN, T, 0)] {
            let element = rreq(0, PATH, &[asked]);
            let frames = [reply(T, 9, 1, LINK)];
            accepts(
                "the transmitter",
                &[FREE, row],
                &element,
                &[LEARNT, renewed],
                &frames,
            );
        }
    }
    // A row of unknown number does not answer.
    for flags in [0, UNKNOWN] {
        let asked = [(flags, T, 0)];
        answers("a new transmitter", &[], 0, &asked, &[onward(0, &asked)]);
    }
    // A row through the transmitter answers too.
    let row = Row {
        next_hop: T,
        ..active(A)
    };
    answers("back", &[row], 0, &[(0, A, 9)], &[row_reply(A)]);
}

/// The TTL received, and the TTL of the forwarded request, if any.
const TTLS: [(u8, Option<u8>); 6] = [
    (0, None),
    (1, None),
    (2, Some(1)),
    (3, Some(2)),
    (31, Some(30)),
    (255, Some(254)),
];

/// With TTL 0 or 1 the point still replies.
#[test]
fn a_request_goes_on_while_hops_are_left() {
    let asked = [(0, A, 9), (0, B, 9)];
    for (ttl, left) in TTLS {
        let mut frames = vec![row_reply(A)];
        if let Some(ttl) = left {
            let path = Path { ttl, ..ONWARD };
            frames.push(frame(ALL_ONES, rreq(0, path, &asked[1..])));
        }
        let element = rreq(0, Path { ttl, ..PATH }, &asked);
        let (before, after) = ([FREE, FREE, active(A)], [LEARNT, NEIGHBOUR, active(A)]);
        accepts(&format!("TTL {ttl}"), &before, &element, &after, &frames);
    }
}

/// A unicast request goes to the next hop of an active row for its destination, of known or unknown
/// number. Without an active row it is not forwarded.
#[test]
fn a_unicast_request_follows_the_row() {
    let asked = [(DO, A, 100)];
    let row = active(A);
    let to_transmitter = Row { next_hop: T, ..row };
    let cases = [
        ("active", row, Some(VIA)),
        ("unknown number", row.unknown(40), Some(A)),
        ("back to the transmitter", to_transmitter, Some(T)),
        ("expired", expired(row), None),
        ("invalidated", invalidated(row), None),
        ("none", active(B), None),
    ];
    for (what, row, to) in cases {
        for flags in [UNICAST, 0xFF] {
            let goes_on = to.map(|to| frame(to, rreq(flags, ONWARD, &asked)));
            let frames: Vec<_> = goes_on.into_iter().collect();
            answers(what, &[row], flags, &asked, &frames);
        }
    }
}

#[test]
pub fn a_unicast_request_is_answered_like_others() {
    for (mark, number) in [(0, 9), (UNKNOWN, 0)] {
        let asked = |flags| [(flags | mark, A, number)];
        let goes_on = frame(VIA, rreq(UNICAST, ONWARD, &asked(RF | DO)));
        let (rows, both) = ([active(A)], [row_reply(A), goes_on]);
        answers("struck out", &rows, UNICAST, &asked(0), &both[..1]);
        answers("kept", &rows, UNICAST, &asked(RF), &both);
    }
    let element = rreq(UNICAST, PATH, &[(0, OWN, 0)]);
    let (before, after) = ([FREE, FREE], [LEARNT, NEIGHBOUR]);
    accepts_numbered("own", 5, &before, &element, 6, &after, &[own_reply(6)]);
    // To the transmitter, whose row was just made.
    let asked = [(0, T, 9)];
    let frames = [frame(T, rreq(UNICAST, ONWARD, &asked))];
    answers("the transmitter", &[], UNICAST, &asked, &frames);
}

/// If the originator is the transmitter, only one row is learnt, and replies go to the originator.
#[test]
fn the_originator_may_transmit() {
    let path = Path { end: T, ..PATH };
    let row = Row {
        destination: T,
        ..LEARNT
    };
    let answer = Path {
        hop_count: 0,
        ttl: 31,
        end: OWN,
        number: 6,
        metric: 0,
        ..PATH
    };
    let frames = [frame(T, new_rrep(answer, T, 9))];
    let element = rreq(0, path, &[(0, OWN, 3)]);
    accepts_numbered("own", 5, &[FREE], &element, 6, &[row], &frames);
}
