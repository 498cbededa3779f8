//! The worked case of docs/PROTOCOL.md, 'Bench', call by call: point 0 asks for point 2 and learns
//! the path through point 1.

use hwmp_tests::answers::{ACCEPTED, STALE};
use hwmp_tests::stand_ins::both;
use hwmp_tests::worked::{ALL_ONES, Address, address};

use crate::script::Script;

/// Returns the request, as point 0 sends it or as point 1 forwards it. Point 0 asks with DO, and
/// marks the number because it knows none.
fn request(hop_count: u8, ttl: u8, metric: u8) -> Vec<u8> {
    [
        &ALL_ONES[..],
        &[130, 37, 0, hop_count, ttl, 1, 0, 0, 0],
        &[2, 0, 0, 0, 0, 1],
        &[1, 0, 0, 0, 0xE8, 3, 0, 0, metric, 0, 0, 0, 1],
        &[5, 2, 0, 0, 0, 0, 3, 0, 0, 0, 0],
    ]
    .concat()
}

/// Returns the reply, as point 2 sends it or as point 1 forwards it.
fn reply(to: Address, hop_count: u8, ttl: u8, metric: u8) -> Vec<u8> {
    [
        &to[..],
        &[131, 32, 0, hop_count, ttl],
        &[2, 0, 0, 0, 0, 3],
        &[1, 0, 0, 0, 0xE8, 3, 0, 0, metric, 0, 0, 0],
        &[2, 0, 0, 0, 0, 1],
        &[1, 0, 0, 0, 0],
    ]
    .concat()
}

#[test]
fn a_request_and_its_reply_teach_both_ways() {
    for by in both() {
        let mut points = Script::fresh(by, &[0, 0, 0]);
        points.ask(0, 1, 2, 1000);
        assert_eq!(points.deliver(0, 1, 10), ACCEPTED, "{}", by.name);
        assert_eq!(points.deliver(1, 2, 20), ACCEPTED, "{}", by.name);
        assert_eq!(points.deliver(2, 1, 20), ACCEPTED, "{}", by.name);
        assert_eq!(points.deliver(3, 0, 10), ACCEPTED, "{}", by.name);

        let sent: Vec<_> = points.sent.iter().map(|sent| &sent.octets).collect();
        let expected = [
            request(0, 31, 0),
            request(1, 30, 10),
            reply(address(1), 0, 31, 0),
            reply(address(0), 1, 30, 20),
        ];
        assert_eq!(sent, expected.iter().collect::<Vec<_>>(), "{}", by.name);

        // There are two hops from each end to the other.
        assert_eq!(points.next_hop(0, 2), (ACCEPTED, address(1)), "{}", by.name);
        assert_eq!(points.next_hop(1, 2), (ACCEPTED, address(2)), "{}", by.name);
        assert_eq!(points.next_hop(2, 0), (ACCEPTED, address(1)), "{}", by.name);
        assert_eq!(points.next_hop(1, 0), (ACCEPTED, address(0)), "{}", by.name);

        let before = points.table(0).to_vec();
        assert_eq!(points.deliver(3, 0, 10), STALE, "{}", by.name);
        assert_eq!(points.table(0), before, "{}", by.name);
        assert_eq!(points.sent.len(), 4, "{}", by.name);
    }
}
