//! Streams in which points ask, announce and hear each other, so that paths are found, broken and
//! walked.

use hwmp_tests::random::Random;
use hwmp_tests::reference::walk::MOST_POINTS;
use hwmp_tests::tables;
use hwmp_tests::worked::Address;

use crate::commands::{advance, announce, ask, deliver, link, point, report_break, walk};
use crate::stream::Stream;

/// Returns a stream of some points. It ends by itself, or where there would be a frame too many.
pub fn some_life(random: &mut Random) -> Stream {
    let mut life = Life::begun(random);
    for _ in 0..30 + random.below(150) {
        if life.stream.has_ended() {
            break;
        }
        life.step(random);
    }
    life.stream
}

struct Life {
    stream: Stream,
    /// The addresses of the points that were added.
    addresses: Vec<Address>,
    linked: [[bool; MOST_POINTS]; MOST_POINTS],
    /// Frames that points within reach have not heard yet: frame and point.
    pending: Vec<(usize, usize)>,
    /// Of this many steps, about fourteen are not deliveries.
    pace: usize,
}

impl Life {
    fn begun(random: &mut Random) -> Life {
        let mut life = Life {
            stream: Stream::default(),
            addresses: Vec::new(),
            linked: [[false; MOST_POINTS]; MOST_POINTS],
            pending: Vec::new(),
            pace: random.pick(&[30, 40, 80, 160]),
        };
        let any = 2 + random.below(MOST_POINTS - 1);
        let few = 2 + random.below(5);
        let count = random.pick(&[few, few, few, any]);
        life.add_points(count, random);
        life.link_points(random);
        life
    }

    /// Sometimes a point among them is refused, or has the address of another.
    fn add_points(&mut self, count: usize, random: &mut Random) {
        let mut addresses = tables::some_addresses(count, random);
        if random.one_in(12) {
            addresses[count - 1] = addresses[0];
        }
        let start = random.pick(&[0, 7, u32::MAX - 2, (1 << 31) - 2, 1 << 31]);
        for &address in &addresses {
            if random.one_in(12) {
                let group = tables::not_individual(random).0;
                self.push(&point(group, start));
            }
            let number = start.wrapping_add(random.below(3) as u32);
            self.push(&point(address, number));
        }
        self.addresses = addresses;
    }

    /// Links the points in a line, a ring, a star, each with each, or at random.
    fn link_points(&mut self, random: &mut Random) {
        let count = self.addresses.len();
        let shape = random.below(5);
        for one in 0..count {
            for other in 0..one {
                let neighbours = one - other == 1;
                let linked = match shape {
                    0 => neighbours,
                    1 => neighbours || one - other == count - 1,
                    2 => other == 0,
                    3 => true,
                    _ => random.one_in(2),
                };
                if linked {
                    let metric = some_metric(random);
                    self.link([one, other], metric, random);
                }
            }
        }
        if random.one_in(4) {
            let alone = random.below(count);
            self.link([alone, alone], 1, random);
        }
    }

    fn link(&mut self, ends: [usize; 2], metric: u32, random: &mut Random) {
        let [one, other] = ends;
        self.linked[one][other] = metric > 0;
        self.linked[other][one] = metric > 0;
        let (one, other) = random.pick(&[(one, other), (other, one)]);
        self.push(&link(one as u8, other as u8, metric));
    }

    /// Appends a command. What it emits is pending for all points that the sender reaches.
    fn push(&mut self, command: &[u8]) {
        let before = self.stream.frames();
        if self.stream.has_ended() || self.stream.push(command).is_none() {
            return;
        }
        for frame in before..self.stream.frames() {
            let reached = self.linked[self.stream.sender(frame)];
            let reached = (0..self.addresses.len()).filter(|&point| reached[point]);
            self.pending.extend(reached.map(|point| (frame, point)));
        }
    }

    fn some_point(&self, random: &mut Random) -> usize {
        random.below(self.addresses.len())
    }

    fn step(&mut self, random: &mut Random) {
        let point = self.some_point(random) as u8;
        let other = self.some_point(random) as u8;
        match random.below(self.pace) {
            0..3 => self.ask(point, random),
            3 | 4 => self.push(&announce(point, some_lifetime(random))),
            5 | 6 => self.push(&report_break(point, other)),
            7..12 => self.push(&walk(point, other)),
            12 => self.push(&advance(random.pick(&[0, 1, 29, 30, 400]))),
            13 => {
                let another = some_metric(random);
                let metric = random.pick(&[0, another]);
                self.link([point.into(), other.into()], metric, random);
            }
            _ => self.deliver_some(random),
        }
    }

    /// Asks mostly for another point.
    fn ask(&mut self, asking: u8, random: &mut Random) {
        let (flags, lifetime) = (some_flags(random), some_lifetime(random));
        let destination = match random.below(24) {
            0 => tables::individual(random).0,
            1 => tables::not_individual(random).0,
            _ => random.pick(&self.addresses),
        };
        self.push(&ask(asking, flags, destination, lifetime));
    }

    /// Delivers mostly one of the first pending frames, which may also be lost or heard again. If
    /// nothing is pending, walks, or lets a point announce or ask.
    fn deliver_some(&mut self, random: &mut Random) {
        let (point, other) = (self.some_point(random), self.some_point(random));
        let frames = self.stream.frames();
        if frames > 0 && random.one_in(12) {
            let any = random.below(frames) as u16;
            return self.push(&deliver(any, point as u8));
        }
        let next = random.below(self.pending.len().clamp(1, 4));
        match self.pending.get(next).copied() {
            Some(pending) => self.deliver_pending(next, pending, random),
            None if random.one_in(4) => self.push(&announce(point as u8, 1000)),
            None if random.one_in(3) => self.ask(point as u8, random),
            None => self.push(&walk(point as u8, other as u8)),
        }
    }

    fn deliver_pending(
        &mut self,
        next: usize,
        (frame, point): (usize, usize),
        random: &mut Random,
    ) {
        if !random.one_in(8) {
            self.pending.remove(next);
        }
        if !random.one_in(24) {
            self.push(&deliver(frame as u16, point as u8));
        }
    }
}

/// Returns mostly a small metric, so that several paths compete.
fn some_metric(random: &mut Random) -> u32 {
    if random.one_in(24) {
        return tables::boundary32(random).max(1);
    }
    1 + random.below(20) as u32
}

fn some_flags(random: &mut Random) -> u8 {
    let any = random.octet();
    random.pick(&[0, 1, 2, 3, 0, 1, 2, 3, 0, 2, any])
}

fn some_lifetime(random: &mut Random) -> u32 {
    random.pick(&[1000, 1000, 1000, 1000, 30, 1, u32::MAX, 0])
}
