//! Streams with a fault somewhere, on which the run must end.

use hwmp_tests::random::Random;
use hwmp_tests::reference::bench::MOST_FRAMES;
use hwmp_tests::reference::walk::MOST_POINTS;
use hwmp_tests::tables;

use crate::commands::{UNKNOWN, advance, announce, ask, deliver, link, point, report_break, walk};
use crate::stream::{Mark, Stream};

/// Cuts the stream anywhere, also between two commands.
pub fn cut(stream: &Stream, random: &mut Random) -> Vec<u8> {
    let end = random.below(stream.octets.len() + 1);
    stream.octets[..end].to_vec()
}

/// Returns the stream up to some command, followed by a part of a command that would have been
/// accepted.
pub fn with_cut_command(stream: &Stream, random: &mut Random) -> Vec<u8> {
    let mark = some_mark(stream, random);
    let command = match random.below(8) {
        0 => point(tables::individual(random).0, 0),
        1 => advance(1),
        2 => link(0, 0, 1),
        3 => ask(0, 0, tables::individual(random).0, 1),
        4 => announce(0, 1),
        5 => deliver(0, 0),
        6 => report_break(0, 0),
        _ => walk(0, 0),
    };
    let part = &command[..1 + random.below(command.len() - 1)];
    [&stream.octets[..mark.offset], part].concat()
}

fn some_mark(stream: &Stream, random: &mut Random) -> Mark {
    let place = random.below(stream.marks.len() + 1);
    let before = stream.marks.get(place).copied();
    before.unwrap_or_else(|| stream.here())
}

/// Inserts a command that ends the run into the stream. The bench must ignore what follows it.
pub fn with_bad_command(stream: &Stream, random: &mut Random) -> Vec<u8> {
    let mark = some_mark(stream, random);
    let (before, after) = stream.octets.split_at(mark.offset);
    let bad = some_bad_command(&mark, random);
    [before, &bad, after].concat()
}

/// Returns an unknown command, or one that names a point or frame that is not there.
fn some_bad_command(mark: &Mark, random: &mut Random) -> Vec<u8> {
    let good = random.below(mark.points.max(1)) as u8;
    let bad = some_bad_point(mark.points, random);
    let [one, other] = random.pick(&[[good, bad], [bad, good], [bad, bad]]);
    let destination = tables::individual(random).0;
    match random.below(8) {
        0 => vec![some_unknown(random)],
        1 => link(one, other, 7),
        2 => ask(bad, 0, destination, 1000),
        3 => announce(bad, 1000),
        4 => deliver(random.below(mark.frames.max(1)) as u16, bad),
        5 => deliver(some_bad_frame(mark.frames, random), good),
        6 => report_break(one, other),
        _ => walk(one, other),
    }
}

/// Returns an octet that is no command. Some of them would be digits in a text.
fn some_unknown(random: &mut Random) -> u8 {
    let any = 9 + random.below(247) as u8;
    let known = random.pick(&UNKNOWN);
    random.pick(&[any, known])
}

/// Returns the first point that is not there, the first that never is, or any beyond.
fn some_bad_point(points: usize, random: &mut Random) -> u8 {
    let any = points + random.below(256 - points);
    random.pick(&[points, points.max(MOST_POINTS), any, 255]) as u8
}

/// Returns the first frame that is not there, one whose first octet alone names a frame that is
/// there, or any beyond.
fn some_bad_frame(frames: usize, random: &mut Random) -> u16 {
    let any = frames + random.below(65_536 - frames);
    let by_first_octet = 256 * (1 + random.below(255)) + random.below(frames.max(1));
    random.pick(&[frames, by_first_octet, any, MOST_FRAMES.max(frames), 65_535]) as u16
}

/// Adds sixteen points, with some refused ones among them, and one more, which may itself be one to
/// refuse.
pub fn crowd(random: &mut Random) -> Vec<u8> {
    let mut octets = Vec::new();
    for address in tables::some_addresses(MOST_POINTS, random) {
        if random.one_in(6) {
            octets.extend(point(tables::not_individual(random).0, 0));
        }
        octets.extend(point(address, 0));
    }
    octets.extend(link(15, 0, 5));
    let group = tables::not_individual(random).0;
    let another = tables::individual(random).0;
    octets.extend(point(random.pick(&[group, another]), 0));
    octets.extend(walk(0, 15));
    octets
}

/// Emits frames up to the last that is kept, and one more. Commands that emit nothing are among
/// them, also when no more frames are kept.
pub fn flood(random: &mut Random) -> Vec<u8> {
    let mut stream = Stream::default();
    let addresses = tables::some_addresses(3, random);
    for &address in &addresses {
        stream.push(&point(address, 0));
    }
    stream.push(&link(0, 1, 5));
    stream.push(&link(1, 2, 6));
    while !stream.has_ended() {
        let point = random.below(3) as u8;
        let frame = random.below(stream.frames().max(1)) as u16;
        let destination = random.pick(&addresses);
        let full = stream.frames() == MOST_FRAMES;
        let lifetime = random.pick(&[0, 1000, 1000, 1000]);
        let command = match random.below(8) {
            _ if full && !random.one_in(4) => silent(frame, random),
            0..3 => announce(point, lifetime),
            3..5 => ask(point, 2, destination, lifetime),
            5 => report_break(point, random.below(3) as u8),
            _ if stream.frames() > 0 => {
                let latest = stream.frames() - 1 - random.below(stream.frames().min(4));
                deliver(latest as u16, point)
            }
            _ => silent(frame, random),
        };
        stream.push(&command);
    }
    stream.octets
}

/// Returns a command that emits nothing, once there is a frame.
fn silent(frame: u16, random: &mut Random) -> Vec<u8> {
    match random.below(5) {
        0 => announce(0, 0),
        1 => deliver(frame, random.pick(&[0, 2])),
        2 => walk(0, 2),
        3 => advance(1),
        _ => link(0, 2, 0),
    }
}

/// Commands with any operands.
pub fn junk(random: &mut Random) -> Vec<u8> {
    let mut octets = point(tables::individual(random).0, 0);
    for _ in 0..random.below(40) {
        let any = [(); 4].map(|_| random.octet());
        let small = any.map(|octet| octet % 4);
        let [a, b, c, d] = if random.one_in(8) { any } else { small };
        let address = random.pick(&[[2, 0, 0, 0, 0, c], [a, b, c, d, 0, 0]]);
        octets.extend(match random.below(32) {
            0 => vec![some_unknown(random)],
            1..12 => point(address, d.into()),
            12..16 => link(a, b, c.into()),
            16..20 => ask(a, b, address, d.into()),
            20..24 => announce(a, b.into()),
            24..28 => deliver(c.into(), a),
            28 => report_break(a, b),
            29 => walk(a, b),
            _ => advance(u32::from_le_bytes(any)),
        });
    }
    octets
}
