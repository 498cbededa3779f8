//! Random meshes. A frame may be delivered at any later time, more than once, to any point, or
//! never.

use hwmp_tests::comparing::{Point, Run, Tally};
use hwmp_tests::mesh::{Mesh, Sent};
use hwmp_tests::random::Random;
use hwmp_tests::received::Received;
use hwmp_tests::reference::element::Rerr;
use hwmp_tests::reference::walk::MOST_POINTS;
use hwmp_tests::tables;

pub struct RandomMesh {
    pub mesh: Mesh,
    /// Everything that was sent, in order.
    sent: Vec<Sent>,
}

/// A call of one point. Frames are numbered as they are sent.
enum Call {
    Announce(usize),
    Ask { point: usize, destination: usize },
    Break { point: usize, neighbour: usize },
    Hear { point: usize, frame: usize },
}

/// The calls by which the own number of point 2 falls back to 1 if it is above 2^31. Each sends one
/// frame.
const FALLING_BACK: [Call; 10] = [
    Call::Announce(1),
    Call::Hear { point: 2, frame: 0 },
    // Point 0 makes a row of unknown number for point 2. The error of its break, frame 3, has 0 for
    // point 2.
    Call::Hear { point: 0, frame: 1 },
    Call::Break {
        point: 0,
        neighbour: 2,
    },
    // Point 1 has a path to point 2 through point 0, with a number to which 0 is newer.
    Call::Announce(2),
    Call::Hear { point: 0, frame: 4 },
    Call::Hear { point: 1, frame: 5 },
    // The error brings point 1 the number 0, with which it asks.
    Call::Hear { point: 1, frame: 3 },
    Call::Ask {
        point: 1,
        destination: 2,
    },
    Call::Hear { point: 2, frame: 8 },
];

impl RandomMesh {
    /// Makes fresh tables, all of few rows or all of many. In some meshes a number then falls back,
    /// so that they lose the premise of demand 3 and walks may meet a point twice.
    pub fn fresh(run: &mut Run, seen: &mut Tally) -> RandomMesh {
        let random = &mut run.random;
        let count = 2 + random.below(MOST_POINTS - 1);
        let few = 1 + random.below(3);
        let many = count + random.below(16);
        let rows = random.pick(&[few, count - 1, many, many]);
        let addresses = tables::some_addresses(count, random);
        let falls_back = count > 2 && random.one_in(8);
        let start = match falls_back {
            true => Some((1 << 31) + 5),
            false => some_start(random),
        };
        let mut random_mesh = RandomMesh {
            mesh: Mesh::fresh(addresses, rows, |random| some_number(start, random), run),
            sent: Vec::new(),
        };
        if falls_back {
            random_mesh.let_a_number_fall_back(run, seen);
        }
        random_mesh
    }

    /// Makes the calls up to one that sends nothing, because it is refused by chance.
    fn let_a_number_fall_back(&mut self, run: &mut Run, seen: &mut Tally) {
        for call in &FALLING_BACK {
            let sent = self.make(call, run, seen);
            if sent.is_empty() {
                break;
            }
            self.sent.extend(sent);
        }
    }

    fn make(&mut self, call: &Call, run: &mut Run, seen: &mut Tally) -> Vec<Sent> {
        let address = |mesh: &Mesh, point: usize| mesh.addresses()[point];
        match *call {
            Call::Announce(point) => self.announce(point, run, seen),
            Call::Ask { point, destination } => {
                let item = [&[0][..], &address(&self.mesh, destination)].concat();
                self.ask_for(point, &item, run, seen)
            }
            Call::Break { point, neighbour } => {
                let neighbour = address(&self.mesh, neighbour);
                self.lose(point, neighbour, run, seen)
            }
            Call::Hear { point, frame } => self.hear(point, frame, run, seen),
        }
    }

    /// Makes one call of one point.
    pub fn step(&mut self, run: &mut Run, seen: &mut Tally) {
        self.mesh.clock += some_advance(&mut run.random);
        let point = run.random.below(self.mesh.addresses().len());
        let sent = match run.random.below(64) {
            0 | 1 => self.ask(point, run, seen),
            2 | 3 => self.announce(point, run, seen),
            4 | 5 => self.root_request(point, run, seen),
            6..9 => self.report_break(point, run, seen),
            _ if self.sent.is_empty() => self.announce(point, run, seen),
            _ => self.deliver(run, seen),
        };
        self.sent.extend(sent);
    }

    fn ask(&mut self, point: usize, run: &mut Run, seen: &mut Tally) -> Vec<Sent> {
        let random = &mut run.random;
        let mut items = Vec::new();
        for _ in 0..random.pick(&[1, 1, 2, 5]) {
            // Mostly one of the points, sometimes a stranger. The own address, or an address twice,
            // is refused.
            let stranger = tables::individual(random).0;
            let member = random.pick(self.mesh.addresses());
            items.push(random.below(4) as u8);
            items.extend(if random.one_in(20) { stranger } else { member });
        }
        self.ask_for(point, &items, run, seen)
    }

    fn ask_for(
        &mut self,
        point: usize,
        items: &[u8],
        run: &mut Run,
        seen: &mut Tally,
    ) -> Vec<Sent> {
        let lifetime = some_lifetime(&mut run.random);
        let ask = |point: &mut Point, run: &mut Run| point.ask(lifetime, items, run);
        self.mesh.call(point, run, seen, ask)
    }

    fn announce(&mut self, point: usize, run: &mut Run, seen: &mut Tally) -> Vec<Sent> {
        let lifetime = some_lifetime(&mut run.random);
        let announce = |point: &mut Point, run: &mut Run| point.announce(0, lifetime, run);
        self.mesh.call(point, run, seen, announce)
    }

    fn root_request(&mut self, point: usize, run: &mut Run, seen: &mut Tally) -> Vec<Sent> {
        let (flags, lifetime) = (run.random.pick(&[0, 4, 5]), some_lifetime(&mut run.random));
        let request = |point: &mut Point, run: &mut Run| point.root_request(flags, lifetime, run);
        self.mesh.call(point, run, seen, request)
    }

    fn report_break(&mut self, point: usize, run: &mut Run, seen: &mut Tally) -> Vec<Sent> {
        let random = &mut run.random;
        let any = random.pick(self.mesh.addresses());
        let next_hop = tables::some_neighbour(self.mesh.table(point), random);
        let neighbour = random.pick(&[any, next_hop, next_hop, next_hop]);
        self.lose(point, neighbour, run, seen)
    }

    fn lose(
        &mut self,
        point: usize,
        neighbour: [u8; 6],
        run: &mut Run,
        seen: &mut Tally,
    ) -> Vec<Sent> {
        let clock = some_clock(self.mesh.clock, &mut run.random);
        let report = |point: &mut Point, run: &mut Run| point.report_break(clock, neighbour, run);
        self.mesh.call(point, run, seen, report)
    }

    fn deliver(&mut self, run: &mut Run, seen: &mut Tally) -> Vec<Sent> {
        let random = &mut run.random;
        let latest = random.pick(&[4, 16, 64, self.sent.len()]);
        let back = random.below(latest.min(self.sent.len()));
        let frame = self.sent.len() - 1 - back;
        let sent = &self.sent[frame];
        let count = self.mesh.addresses().len();
        let another = (sent.from + 1 + random.below(count - 1)) % count;
        // An error concerns only points whose rows lead through its transmitter.
        let concerned = self.mesh.ways().leading_through(sent.from, another);
        let receiver = match (sent.to, concerned) {
            (Some(receiver), _) if !random.one_in(4) => receiver,
            (_, Some(concerned)) if sent.element[0] == Rerr::ID && random.one_in(2) => concerned,
            _ if random.one_in(40) => sent.from,
            _ => another,
        };
        self.hear(receiver, frame, run, seen)
    }

    fn hear(
        &mut self,
        receiver: usize,
        frame: usize,
        run: &mut Run,
        seen: &mut Tally,
    ) -> Vec<Sent> {
        let (sent, random) = (&self.sent[frame], &mut run.random);
        let received = Received {
            clock: some_clock(self.mesh.clock, random),
            transmitter: self.mesh.addresses()[sent.from],
            link_metric: some_link_metric(random),
            element: sent.element.clone(),
        };
        self.mesh.receive(receiver, &received, run, seen)
    }
}

/// Returns a number near which all points of a mesh start, or None if each starts near a number of
/// its own.
fn some_start(random: &mut Random) -> Option<u32> {
    random.pick(&[Some(4), Some(u32::MAX - 4), Some(1 << 31), None])
}

fn some_number(start: Option<u32>, random: &mut Random) -> u32 {
    let near = start.unwrap_or_else(|| random.pick(&[4, u32::MAX - 4, (1 << 31) - 4, 1 << 31]));
    near - 4 + random.below(9) as u32
}

fn some_advance(random: &mut Random) -> u64 {
    match random.below(512) {
        0 => 2000,
        1..8 => 60,
        _ => random.pick(&[0, 0, 0, 1]),
    }
}

/// Returns a clock that is sometimes behind, because two clocks may differ a little.
fn some_clock(clock: u64, random: &mut Random) -> u64 {
    let behind = random.below(8) as u64;
    if random.one_in(16) {
        clock.saturating_sub(behind)
    } else {
        clock
    }
}

fn some_lifetime(random: &mut Random) -> u32 {
    random.pick(&[1, 30, 300, 1000, 1000, u32::MAX])
}

/// Returns mostly a small link metric, so that several paths compete.
fn some_link_metric(random: &mut Random) -> u32 {
    let huge = [u32::MAX, u32::MAX - 1, u32::MAX - 20, 1 << 31];
    if random.one_in(24) {
        random.pick(&huge)
    } else {
        1 + random.below(9) as u32
    }
}
