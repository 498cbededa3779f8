//! Streams in which points stand in a line, so that walks are long and can end anywhere.

use hwmp_tests::random::Random;
use hwmp_tests::reference::walk::MOST_POINTS;
use hwmp_tests::tables;

use crate::commands::{advance, announce, deliver, link, point, report_break, walk};
use crate::script::LIFETIME;
use crate::stream::Stream;

/// One end announces itself, which reaches all points or all up to some point. Then a point loses
/// its neighbour, or time passes. All points walk to that end, before and after.
pub fn some_line(random: &mut Random) -> Stream {
    let count = 3 + random.below(MOST_POINTS - 2);
    let first = random.below(count);
    // The points in the order of their places in the line.
    let points: Vec<u8> = (0..count)
        .map(|step| ((first + step) % count) as u8)
        .collect();
    let mut stream = Stream::default();
    for address in tables::some_addresses(count, random) {
        stream.push(&point(address, random.octet().into()));
    }
    for ends in points.windows(2) {
        stream.push(&link(ends[0], ends[1], 1 + random.below(9) as u32));
    }
    stream.push(&announce(points[0], LIFETIME));
    let some = 1 + random.below(count);
    let reached = random.pick(&[count, count, some]);
    for (frame, &hearing) in points[1..reached].iter().enumerate() {
        stream.push(&deliver(frame as u16, hearing));
    }
    walk_all(&mut stream, &points);
    let losing = 1 + random.below(count - 1);
    match random.below(4) {
        0 => stream.push(&advance(LIFETIME - 1)),
        1 => stream.push(&advance(LIFETIME)),
        _ => stream.push(&report_break(points[losing], points[losing - 1])),
    };
    walk_all(&mut stream, &points);
    stream
}

fn walk_all(stream: &mut Stream, points: &[u8]) {
    for &start in points {
        stream.push(&walk(start, points[0]));
    }
}
