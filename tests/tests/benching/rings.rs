//! Streams after which two points lead to each other. The numbers of the destination lie more than
//! half the circle apart, where a late announcement can be newer than what came after it.

use hwmp_tests::random::Random;
use hwmp_tests::reference::walk::MOST_POINTS;
use hwmp_tests::tables;

use crate::commands::{announce, ask, deliver, link, point, report_break, walk};
use crate::script::LIFETIME;
use crate::stream::Stream;

/// The destination's number before its first announcement.
const HALF_THE_CIRCLE_AND_ONE: u32 = (1 << 31) + 1;

/// Returns a stream with four points in any places, and walks from all points to the destination at
/// the end.
pub fn some_ring(random: &mut Random) -> Stream {
    let count = 4 + random.below(MOST_POINTS - 3);
    let addresses = tables::some_addresses(count, random);
    let first = random.below(count);
    let [near, far, asking, destination] = [0, 1, 2, 3].map(|step| ((first + step) % count) as u8);
    let mut stream = Stream::default();
    for (place, &address) in addresses.iter().enumerate() {
        let number = if place == usize::from(destination) {
            HALF_THE_CIRCLE_AND_ONE
        } else {
            random.below(5) as u32
        };
        stream.push(&point(address, number));
    }
    for (one, other) in [
        (near, far),
        (near, destination),
        (asking, destination),
        (near, asking),
    ] {
        stream.push(&link(one, other, 1 + random.below(9) as u32));
    }
    let to = addresses[usize::from(destination)];
    let commands = [
        // From what the destination forwards, `near` makes a row of unknown number for it. The error
        // of the break, frame 3, carries 0 for the destination.
        announce(asking, LIFETIME),
        deliver(0, destination),
        deliver(1, near),
        report_break(near, destination),
        // Frame 4 carries 2^31 + 2, and so do frames 5, 6 and 7, which forward it.
        announce(destination, LIFETIME),
        deliver(4, near),
        deliver(5, far),
        deliver(5, asking),
        // The 0 of the error is newer. Frame 9 asks with it, and frame 10 replies with 1.
        deliver(3, asking),
        ask(asking, 1, to, LIFETIME),
        deliver(9, destination),
        deliver(10, near),
        // Frames 11 and 12 carry 2 and 3.
        announce(destination, LIFETIME),
        announce(destination, LIFETIME),
        deliver(12, near),
        // After 3, the 2^31 + 2 of frame 6 is newer again.
        deliver(6, near),
    ];
    for command in commands {
        stream.push(&command);
    }
    for one in 0..count {
        stream.push(&walk(one as u8, destination));
    }
    stream
}
