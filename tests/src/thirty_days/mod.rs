//! Sixteen points along a drive live through thirty simulated days, and each call is made by the
//! library and by the reference. Roots send root requests and portals announce themselves again and
//! again. Points ask for each other. Links change, go away and come back. Frames are lost, late,
//! repeated, out of order, heard by points they were not meant for, and damaged. After every
//! accepted call the octets must still be a table, and demand 3 must hold (docs/PROTOCOL.md,
//! 'Demands').
//!
//! Forget is left out, because demand 3 is false with it: a point that forgot a row takes old
//! elements for new ones.

mod calling;
mod drive;
mod queue;
mod report;
mod sending;
mod walking;

use crate::comparing::{Run, Tally, Walks};
use crate::mesh::{Mesh, Sent};
use crate::random::Random;
use crate::reference::table::{CLOCK_MAX, Head, Table};
use crate::reference::walk::MOST_POINTS;
use crate::worked::address;

use drive::Drive;
use queue::{Event, Queue};

const SECOND: u64 = 1000;
const HOUR: u64 = 3600 * SECOND;
const DAY: u64 = 24 * HOUR;
const DAYS: u64 = 30;

/// Which thirty days, and how many rows each table has.
pub struct Stretch {
    pub name: &'static str,
    last: u64,
    rows: usize,
}

/// In the first stretch a table has a row for every other point and none for a stranger. In the
/// second it also lacks a row for one point, so that the last point heard of is refused (27).
pub const STRETCHES: [Stretch; 2] = [
    Stretch {
        name: "thirty days from the first clock on",
        last: DAYS * DAY,
        rows: MOST_POINTS - 1,
    },
    Stretch {
        name: "thirty days up to the last clock",
        last: CLOCK_MAX,
        rows: MOST_POINTS - 2,
    },
];

/// The points that send root requests (ROOTS) or announce themselves (PORTALS): point, flags, and
/// after how many gaps it does so again.
const ROOTS: [(usize, u8, u64); 2] = [(0, 5, 11), (13, 0, 17)];
const PORTALS: [(usize, u8, u64); 2] = [(4, 1, 13), (9, 1, 19)];

/// Counted for each point whose own number passed from 4,294,967,295 to 0.
const WRAPPED: &str = "own number passed to 0";

pub struct Days {
    first: u64,
    last: u64,
    /// The mean time from one incident to the next.
    gap: u64,
    mesh: Mesh,
    drive: Drive,
    queue: Queue,
    run: Run,
    walks: Walks,
    seen: Tally,
    /// The own number of each point after its latest call.
    numbers: Vec<u32>,
    /// How many frames were sent. `heard` has, for each receiver and sender, the latest frame that
    /// arrived.
    frames: u64,
    heard: [[u64; MOST_POINTS]; MOST_POINTS],
    /// The most hops of walks that met their destination.
    most_hops: u32,
}

impl Days {
    /// Lives through a stretch, with a mean of `incidents_per_day` incidents a day.
    pub fn live(stretch: &Stretch, incidents_per_day: u64, random: Random) -> Days {
        let mut days = Days::start(stretch, incidents_per_day, random);
        days.plan();
        while let Some((clock, event)) = days.queue.next() {
            days.mesh.clock = clock;
            days.happen(event);
        }
        days.tour();
        (days.mesh).check_all_walks(&days.run, &mut days.seen);
        days
    }

    fn start(stretch: &Stretch, incidents_per_day: u64, mut random: Random) -> Days {
        let walks = Walks::new(Random::new(random.number()));
        let drive = Drive::whole(&mut random);
        let mut run = Run::new(random);
        let mesh = fresh_mesh(stretch.rows, incidents_per_day, &mut run);
        let numbers = (0..MOST_POINTS).map(|point| head(&mesh, point).number.0);
        Days {
            first: stretch.last - DAYS * DAY,
            last: stretch.last,
            gap: (DAY / incidents_per_day).max(1),
            numbers: numbers.collect(),
            mesh,
            drive,
            queue: Queue::up_to(stretch.last),
            run,
            walks,
            seen: Tally::default(),
            frames: 0,
            heard: [[0; MOST_POINTS]; MOST_POINTS],
            most_hops: 0,
        }
    }

    /// Plans what begins at the first clock, and what happens at the last.
    fn plan(&mut self) {
        let roots = (0..ROOTS.len()).map(Event::RootRequest);
        let portals = (0..PORTALS.len()).map(Event::Announcement);
        for event in roots.chain(portals).chain([Event::Incident, Event::Tour]) {
            self.queue.add(self.first, event);
        }
        self.queue.add(self.last, Event::LastMoment);
    }

    fn happens_after(&mut self, delay: u64, event: Event) {
        self.queue.add(self.mesh.clock + delay, event);
    }

    fn happen(&mut self, event: Event) {
        match event {
            Event::RootRequest(root) => self.root_request(root),
            Event::Announcement(portal) => self.portal_announces(portal),
            Event::Incident => self.incident(),
            Event::Break { point, neighbour } => self.report_break(point, neighbour),
            Event::LinkBack(link) => self.drive.renew(link, &mut self.run.random),
            Event::Arrival(arrival) => self.arrive(&arrival),
            Event::Tour => self.tour(),
            Event::LastMoment => self.last_moment(),
        }
    }

    /// Does what follows every call of a point that may send.
    fn after(&mut self, point: usize, sent: Vec<Sent>) {
        self.note_number(point);
        self.check_premise();
        self.send(sent);
    }

    fn note_number(&mut self, point: usize) {
        let number = head(&self.mesh, point).number.0;
        if number < self.numbers[point] {
            self.seen.count(WRAPPED, point as u32);
        }
        self.numbers[point] = number;
    }

    /// Checks the premise of demand 3, without which a walk in a circle would be excused. The
    /// premise holds because own numbers start a little below 2^32 and step far less than 2^31
    /// times. All numbers of a point lie in one window with 0, which a RERR carries for a row of
    /// unknown number.
    fn check_premise(&self) {
        for destination in 0..MOST_POINTS {
            let premise = self.mesh.meets_premise(destination);
            assert!(premise, "numbers of {destination} are too far apart");
        }
    }

    fn some_point(&mut self) -> usize {
        self.run.random.below(MOST_POINTS)
    }

    fn below(&mut self, bound: u64) -> u64 {
        self.run.random.below(bound as usize) as u64
    }
}

fn fresh_mesh(rows: usize, incidents_per_day: u64, run: &mut Run) -> Mesh {
    let addresses = (0..MOST_POINTS).map(address).collect();
    let mut numbers = (1..).map(|place| first_number(place, incidents_per_day));
    let number = |_: &mut Random| numbers.next().expect("there is no last one");
    Mesh::fresh(addresses, rows, number, run)
}

/// Returns a number so many steps before 2^32 that the points pass it one after another during the
/// thirty days, however many incidents a day has.
fn first_number(place: u64, incidents_per_day: u64) -> u32 {
    let steps = 1 + place * incidents_per_day / 8;
    0_u32.wrapping_sub(steps as u32)
}

fn head(mesh: &Mesh, point: usize) -> Head {
    let table = Table::cut(mesh.table(point)).expect("a table's length");
    table.head()
}
