//! Lists of calls that would let two points lead to each other if one rule were different. Each
//! list has the delivery that a point must refuse. The destination is point 3. Only the last list
//! lies outside the premise of demand 3, and there two points do lead to each other.

use hwmp_tests::answers::{ACCEPTED, NO_NEXT_HOP, STALE};
use hwmp_tests::stand_ins::both;
use hwmp_tests::worked::address;

use crate::script::Script;

const A: usize = 0;
const B: usize = 1;
const C: usize = 2;
const D: usize = 3;
const E: usize = 4;

/// Runs a list of calls by both implementations, from own number 7 on.
fn by_both(run: impl Fn(&mut Script)) {
    for by in both() {
        run(&mut Script::fresh(by, &[7; 5]));
    }
}

/// The rule: an equal number is not taken at a worse metric, whether the row is active or not.
#[test]
fn an_expired_row_does_not_take_an_equal_number() {
    by_both(|points| {
        points.ask(D, 0, E, 1);
        assert_eq!(points.deliver_at(9, 0, A, 6), ACCEPTED);
        assert_eq!(points.deliver_at(1, 1, B, 8), ACCEPTED);
        assert_eq!(points.deliver_at(11, 2, A, 5), STALE);
    });
}

/// The rules: a break keeps the row, and steps its number.
#[test]
fn a_broken_row_is_remembered() {
    by_both(|points| {
        points.announce(D);
        assert_eq!(points.deliver(0, A, 5), ACCEPTED);
        assert_eq!(points.deliver(1, B, 5), ACCEPTED);
        points.report_break(A, D);
        assert_eq!(points.deliver(2, A, 1), STALE);
        assert_eq!(points.next_hop(A, D).0, NO_NEXT_HOP);
        assert_eq!(points.next_hop(B, D), (ACCEPTED, address(A)));
    });
}

/// The rule: a row that an error matches is kept, with the error's number.
#[test]
fn a_row_hit_by_an_error_is_remembered() {
    by_both(|points| {
        points.announce(D);
        assert_eq!(points.deliver(0, A, 5), ACCEPTED);
        assert_eq!(points.deliver(1, B, 5), ACCEPTED);
        assert_eq!(points.deliver(2, C, 5), ACCEPTED);
        points.report_break(A, D);
        assert_eq!(points.deliver(4, B, 5), ACCEPTED);
        assert_eq!(points.deliver(3, B, 1), STALE);
        assert_eq!(points.next_hop(B, D).0, NO_NEXT_HOP);
    });
}

/// The rule: a reply of equal number must be better, like other elements.
#[test]
fn a_reply_is_not_taken_back() {
    by_both(|points| {
        points.root_request(E);
        assert_eq!(points.deliver(0, A, 1), ACCEPTED);
        // A's reply is frame 1 and its forwarded request frame 2. B's are 3 and 4, D's 5 and 6.
        assert_eq!(points.deliver(2, B, 1), ACCEPTED);
        assert_eq!(points.deliver(4, D, 1), ACCEPTED);
        assert_eq!(points.deliver(5, A, 1), ACCEPTED);
        assert_eq!(points.deliver(7, B, 1), ACCEPTED);
        assert_eq!(points.deliver(8, A, 1), STALE);
        assert_eq!(points.next_hop(A, D), (ACCEPTED, address(D)));
        assert_eq!(points.next_hop(B, D), (ACCEPTED, address(A)));
    });
}

/// The rule: 0 is newer than 4,294,967,295.
#[test]
fn a_number_that_went_round_is_newer() {
    for by in both() {
        let points = &mut Script::fresh(by, &[7, 7, 7, 0xFFFF_FFFE, 7]);
        points.root_request(D);
        assert_eq!(points.deliver(0, A, 2), ACCEPTED);
        points.report_break(A, D);
        // A's reply is frame 1, its forwarded request 2 and its error 3. B's are 4 and 5.
        assert_eq!(points.deliver(2, B, 2), ACCEPTED);
        assert_eq!(points.deliver(5, A, 2), STALE);
        assert_eq!(points.next_hop(A, D).0, NO_NEXT_HOP);
    }
}

/// The own number of D is above 2^31, so that a 0 is newer.
const ABOVE_HALF: [u32; 5] = [7, 7, 7, 2_147_483_649, 7];

/// The rule: a marked 0 is not compared with the own number. Otherwise D would fall back to 1, and
/// an old announcement would be newer once more.
#[test]
pub fn a_number_does_not_fall_back_for_a_marked_0() {
    for by in both() {
        let points = &mut Script::fresh(by, &ABOVE_HALF);
        points.announce(D);
        assert_eq!(points.deliver(0, A, 1), ACCEPTED);
        assert_eq!(points.deliver(1, B, 1), ACCEPTED);
        // C knows no number. D's reply is frame 4.
        points.ask(C, 0, D, 1000);
        assert_eq!(points.deliver(3, D, 1), ACCEPTED);
        assert_eq!(points.deliver(4, A, 1), ACCEPTED);
        points.announce(D);
        points.announce(D);
        assert_eq!(points.deliver(6, A, 1), ACCEPTED);
        assert_eq!(points.deliver(2, A, 1), STALE);
        assert_eq!(points.next_hop(A, D), (ACCEPTED, address(D)));
        assert_eq!(points.next_hop(B, D), (ACCEPTED, address(A)));
    }
}

/// The rule: a link that is worse than the row does not change it.
#[test]
fn a_worse_link_is_not_taken() {
    by_both(|points| {
        points.announce(D);
        assert_eq!(points.deliver(0, C, 5), ACCEPTED);
        assert_eq!(points.deliver(1, A, 3), ACCEPTED);
        points.announce(E);
        assert_eq!(points.deliver(3, D, 1), ACCEPTED);
        // C hears D as the transmitter of what E announced.
        assert_eq!(points.deliver(4, C, 15), ACCEPTED);
        assert_eq!(points.deliver(2, C, 2), STALE);
        assert_eq!(points.next_hop(C, D), (ACCEPTED, address(D)));
    });
}

/// The error of a break has no mark for the 0 of an unknown number. The 0 is therefore carried for
/// D, whose number is more than half the circle ahead of it, so that the 0 is newer.
#[test]
fn outside_the_premise_a_number_falls_back() {
    for by in both() {
        let points = &mut Script::fresh(by, &ABOVE_HALF);
        // From what D forwards, A makes a row of unknown number for D. Its error is frame 3.
        points.announce(C);
        assert_eq!(points.deliver(0, D, 1), ACCEPTED);
        assert_eq!(points.deliver(1, A, 1), ACCEPTED);
        points.report_break(A, D);
        // D announces 2,147,483,650. A forwards it in frame 5, B in frame 6, C in frame 7.
        points.announce(D);
        assert_eq!(points.deliver(4, A, 1), ACCEPTED);
        assert_eq!(points.deliver(5, B, 1), ACCEPTED);
        assert_eq!(points.deliver(5, C, 1), ACCEPTED);
        // The error brings C the number 0, and C asks with it. D replies with 1, in frame 10.
        assert_eq!(points.deliver(3, C, 1), ACCEPTED);
        points.ask(C, 0, D, 1000);
        assert_eq!(points.deliver(9, D, 1), ACCEPTED);
        assert_eq!(points.deliver(10, A, 1), ACCEPTED);
        // D announces 2 and 3. To 3 the first number is newer once more.
        points.announce(D);
        points.announce(D);
        assert_eq!(points.deliver(12, A, 1), ACCEPTED);
        assert_eq!(points.deliver(6, A, 1), ACCEPTED);
        assert_eq!(points.next_hop(A, D), (ACCEPTED, address(B)));
        assert_eq!(points.next_hop(B, D), (ACCEPTED, address(A)));
    }
}
