//! What the commands do, case by case.

use hwmp_tests::worked::{GROUP, STRANGER, address};

use crate::commands::{advance, announce, ask, deliver, link, point, report_break, walk};
use crate::script::{LIFETIME, Step, input, line, output, points, prints, prints_all, script};

/// The transmitter of an element is the point that sent it. The link is that of sender and
/// receiver, both ways.
#[test]
fn links_hold_both_ways_until_they_are_set_again() {
    for [one, other] in [[0, 1], [1, 0]] {
        let case = script(
            points(3),
            &[
                (announce(0, LIFETIME), "5 0 1"),
                (announce(1, LIFETIME), "5 0 1"),
                (deliver(0, 1), "6 5 0"),
                (link(one, other, 10), "3 0 0"),
                (deliver(0, 1), "6 0 1"),
                (deliver(1, 0), "6 0 1"),
                (deliver(0, 2), "6 5 0"),
                (deliver(1, 2), "6 5 0"),
                // The same frame at a worse metric, and then at a better one.
                (link(one, other, 11), "3 0 0"),
                (deliver(0, 1), "6 25 0"),
                (link(other, one, 9), "3 0 0"),
                (deliver(0, 1), "6 0 1"),
                (deliver(1, 0), "6 0 1"),
                (link(other, one, 0), "3 0 0"),
                (deliver(0, 1), "6 5 0"),
                (deliver(1, 0), "6 5 0"),
                (link(one, other, u32::MAX), "3 0 0"),
                (deliver(0, 1), "6 13 0"),
            ],
        );
        prints("links", &case);
    }
}

/// All four octets of a metric count, and all four of a lifetime and of an advance.
#[test]
fn numbers_are_read_whole() {
    for octet in 0..4 {
        let step = 1_u32 << (8 * octet);
        let metrics = script(
            points(2),
            &[
                (link(0, 1, 2 * step), "3 0 0"),
                (announce(0, LIFETIME), "5 0 1"),
                (deliver(0, 1), "6 0 1"),
                (link(0, 1, 2 * step), "3 0 0"),
                (deliver(0, 1), "6 25 0"),
                (link(0, 1, step), "3 0 0"),
                (deliver(0, 1), "6 0 1"),
            ],
        );
        prints("metric", &metrics);
        let lifetimes = script(
            line(2),
            &[
                (advance(step), "2 0 0"),
                (announce(0, 2 * step), "5 0 1"),
                (deliver(0, 1), "6 0 1"),
                (advance(2 * step - 1), "2 0 0"),
                (walk(1, 0), "8 0 1"),
                (advance(1), "2 0 0"),
                (walk(1, 0), "8 41 0"),
            ],
        );
        prints("lifetime", &lifetimes);
    }
}

/// A link to itself lets a point hear itself, which is refused with 23.
#[test]
fn a_point_may_be_linked_to_itself() {
    let case = script(
        points(1),
        &[
            (announce(0, LIFETIME), "5 0 1"),
            (deliver(0, 0), "6 5 0"),
            (link(0, 0, 3), "3 0 0"),
            (deliver(0, 0), "6 23 0"),
            (report_break(0, 0), "7 23 0"),
            (walk(0, 0), "8 0 0"),
        ],
    );
    prints("alone", &case);
}

/// A fresh table cannot see that another point has its address.
#[test]
fn two_points_may_have_one_address() {
    let twice = [
        (point(address(0), 0), "1 0 0"),
        (point(address(1), 0), "1 0 0"),
    ];
    let case = script(
        twice.to_vec(),
        &[
            (walk(0, 1), "8 41 0"),
            (point(address(0), 5), "1 0 0"),
            (link(0, 2, 4), "3 0 0"),
            (announce(0, LIFETIME), "5 0 1"),
            (deliver(0, 2), "6 23 0"),
            (report_break(0, 2), "7 23 0"),
            (ask(0, 0, address(0), LIFETIME), "4 24 0"),
            (walk(0, 0), "8 10 0"),
            (walk(0, 1), "8 10 0"),
            (walk(1, 1), "8 10 0"),
        ],
    );
    prints("twice", &case);
}

/// An ask has one item. Its refusals come in the order of their numbers.
#[test]
fn asks_are_refused_by_their_number() {
    let case = script(
        points(1),
        &[
            (ask(0, 3, STRANGER, LIFETIME), "4 0 1"),
            (ask(0, 4, STRANGER, 0), "4 10 0"),
            (ask(0, 255, STRANGER, LIFETIME), "4 10 0"),
            (ask(0, 4, GROUP, 0), "4 9 0"),
            (ask(0, 0, [0xFF; 6], LIFETIME), "4 9 0"),
            (ask(0, 0, STRANGER, 0), "4 11 0"),
            (ask(0, 0, address(0), 0), "4 11 0"),
            (ask(0, 0, address(0), LIFETIME), "4 24 0"),
            (announce(0, 0), "5 11 0"),
            (announce(0, 1), "5 0 1"),
        ],
    );
    prints("asks", &case);
}

/// Point 2 learns a path to point 0 through point 1, which then loses it.
#[test]
fn a_break_names_the_neighbour_by_its_number() {
    let case = script(
        line(3),
        &[
            (announce(0, LIFETIME), "5 0 1"),
            (deliver(0, 1), "6 0 1"),
            (deliver(1, 2), "6 0 1"),
            (walk(2, 0), "8 0 2"),
            // No row of point 2 leads through point 0, and none of point 1 through point 2.
            (report_break(2, 0), "7 0 0"),
            (report_break(1, 2), "7 0 0"),
            (walk(2, 0), "8 0 2"),
            (report_break(1, 0), "7 0 1"),
            (walk(1, 0), "8 41 0"),
            (walk(2, 0), "8 41 1"),
            (report_break(1, 0), "7 0 0"),
            // The error is frame 3. It has a match at point 2, which sends frame 4.
            (deliver(3, 0), "6 26 0"),
            (deliver(3, 2), "6 0 1"),
            (walk(2, 0), "8 41 0"),
            (deliver(3, 2), "6 26 0"),
            (deliver(4, 1), "6 26 0"),
            (deliver(0, 1), "6 25 0"),
        ],
    );
    prints("break", &case);
}

/// The clock starts at 0, and calls get it.
#[test]
fn ways_end_when_their_time_is_over() {
    let case = script(
        line(2),
        &[
            (announce(0, 5), "5 0 1"),
            (deliver(0, 1), "6 0 1"),
            (advance(4), "2 0 0"),
            (walk(1, 0), "8 0 1"),
            (advance(1), "2 0 0"),
            (walk(1, 0), "8 41 0"),
            (report_break(1, 0), "7 0 0"),
            // Heard again, frame 0 is as old as the row. The next announcement is newer, and counts
            // from now on.
            (deliver(0, 1), "6 25 0"),
            (announce(0, 5), "5 0 1"),
            (deliver(2, 1), "6 0 1"),
            (walk(1, 0), "8 0 1"),
        ],
    );
    prints("clock", &case);
}

/// Own numbers wrap: after 4,294,967,295 comes 0, which is newer.
#[test]
fn own_numbers_go_round() {
    let first = [
        (point(address(0), u32::MAX - 1), "1 0 0"),
        (point(address(1), 0), "1 0 0"),
        (link(0, 1, 10), "3 0 0"),
    ];
    let case = script(
        first.to_vec(),
        &[
            (announce(0, LIFETIME), "5 0 1"),
            (announce(0, LIFETIME), "5 0 1"),
            (deliver(0, 1), "6 0 1"),
            (deliver(1, 1), "6 0 1"),
            (deliver(0, 1), "6 25 0"),
        ],
    );
    prints("round", &case);
}

const NEAR: u8 = 0;
const FAR: u8 = 1;
const ASKING: u8 = 2;
const DESTINATION: u8 = 3;

/// Returns the four points above, with links between all but FAR and the two last. The number of
/// DESTINATION is above 2^31, so that a 0 is newer.
fn four_points() -> Vec<Step> {
    let more = [
        (point(address(3), (1 << 31) + 1), "1 0 0"),
        (link(NEAR, DESTINATION, 5), "3 0 0"),
        (link(NEAR, FAR, 5), "3 0 0"),
        (link(ASKING, DESTINATION, 5), "3 0 0"),
        (link(NEAR, ASKING, 5), "3 0 0"),
    ];
    script(points(3), &more)
}

/// An ask that knows no number says so. The destination steps its number, and what it announced
/// before stays old.
#[test]
fn an_ask_without_a_number_leads_to_no_ring() {
    let case = script(
        four_points(),
        &[
            (announce(DESTINATION, LIFETIME), "5 0 1"),
            (deliver(0, NEAR), "6 0 1"),
            (deliver(1, FAR), "6 0 1"),
            (ask(ASKING, 1, address(3), LIFETIME), "4 0 1"),
            (deliver(3, DESTINATION), "6 0 1"),
            (deliver(4, NEAR), "6 0 0"),
            (announce(DESTINATION, LIFETIME), "5 0 1"),
            (announce(DESTINATION, LIFETIME), "5 0 1"),
            (deliver(6, NEAR), "6 0 1"),
            (deliver(2, NEAR), "6 25 0"),
            (walk(NEAR, DESTINATION), "8 0 1"),
            (walk(FAR, DESTINATION), "8 0 2"),
        ],
    );
    prints("no ring", &case);
}

/// Numbers more than half the circle apart let two points lead to each other. The walk has as many
/// hops as there are points, and no more. `rings` says what the frames carry.
#[test]
fn a_walk_in_a_ring_ends() {
    for idle in 0..=12 {
        let mut first = four_points();
        first.extend((0..idle).map(|place| (point(address(4 + place), 0), "1 0 0")));
        let case = script(
            first,
            &[
                (announce(ASKING, LIFETIME), "5 0 1"),
                (deliver(0, DESTINATION), "6 0 1"),
                (deliver(1, NEAR), "6 0 1"),
                (report_break(NEAR, DESTINATION), "7 0 1"),
                (announce(DESTINATION, LIFETIME), "5 0 1"),
                (deliver(4, NEAR), "6 0 1"),
                (deliver(5, FAR), "6 0 1"),
                (deliver(5, ASKING), "6 0 1"),
                (walk(FAR, DESTINATION), "8 0 2"),
                (deliver(3, ASKING), "6 0 1"),
                (ask(ASKING, 1, address(3), LIFETIME), "4 0 1"),
                (deliver(9, DESTINATION), "6 0 1"),
                (deliver(10, NEAR), "6 0 0"),
                (announce(DESTINATION, LIFETIME), "5 0 1"),
                (announce(DESTINATION, LIFETIME), "5 0 1"),
                (deliver(12, NEAR), "6 0 1"),
                (deliver(6, NEAR), "6 0 1"),
                (walk(DESTINATION, DESTINATION), "8 0 0"),
                (walk(ASKING, DESTINATION), "8 41 0"),
            ],
        );
        let walks = [walk(NEAR, DESTINATION), walk(FAR, DESTINATION)];
        let input = [input(&case), walks.concat()].concat();
        let walked = format!("8 42 {}\n", 4 + idle).repeat(walks.len());
        prints_all("ring", &input, &(output(&case) + &walked));
    }
}

/// A table has a row for each other point, with as many points as there can be.
#[test]
fn a_point_hears_of_all_others() {
    let others = 1..16;
    let mut case = points(16);
    case.extend(others.clone().map(|other| (link(0, other, 10), "3 0 0")));
    case.extend(
        others
            .clone()
            .map(|other| (announce(other, LIFETIME), "5 0 1")),
    );
    case.extend(
        others
            .clone()
            .map(|other| (deliver(u16::from(other) - 1, 0), "6 0 1")),
    );
    case.extend(others.map(|other| (walk(0, other), "8 0 1")));
    prints("all others", &case);
}
