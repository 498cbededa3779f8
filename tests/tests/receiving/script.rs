//! Points that call and hear each other, step by step.

use hwmp_tests::answers::ACCEPTED;
use hwmp_tests::comparing::frames;
use hwmp_tests::implementation::Implementation;
use hwmp_tests::library::Outcome;
use hwmp_tests::worked::{Address, LEAST_OUTPUT, address};

const LIFETIME: u32 = 1000;

/// A frame as it stands in the output, and the point that sent it.
pub struct Sent {
    from: usize,
    pub octets: Vec<u8>,
}

pub struct Script<'a> {
    pub by: &'a Implementation,
    tables: Vec<Vec<u8>>,
    /// Everything that was sent, in order.
    pub sent: Vec<Sent>,
}

impl Script<'_> {
    /// Makes points with fresh tables of 16 rows and these own numbers.
    pub fn fresh<'a>(by: &'a Implementation, numbers: &[u32]) -> Script<'a> {
        let table = |(point, number): (usize, &u32)| {
            let mut table = vec![0; 32 + 32 * 16];
            assert_eq!((by.fresh)(&mut table, &address(point), *number), ACCEPTED);
            table
        };
        Script {
            by,
            tables: numbers.iter().enumerate().map(table).collect(),
            sent: Vec::new(),
        }
    }

    /// Makes a call on a point's table, keeps what it sends, and returns its answer.
    fn call(
        &mut self,
        point: usize,
        call: impl Fn(&Implementation, &mut [u8], &mut [u8]) -> Outcome,
    ) -> u32 {
        let mut output = [0; LEAST_OUTPUT];
        let outcome = call(self.by, &mut self.tables[point], &mut output);
        let before = self.sent.len();
        let sent = frames(&output[..outcome.octets as usize]).map(|(to, element)| Sent {
            from: point,
            octets: [&to, element].concat(),
        });
        self.sent.extend(sent);
        assert_eq!(self.sent.len() - before, outcome.frames as usize);
        outcome.answer
    }

    pub fn announce(&mut self, point: usize) {
        let answer = self.call(point, |by, table, output| {
            (by.announce)(table, output, 0, LIFETIME)
        });
        assert_eq!(answer, ACCEPTED);
    }

    /// Sends a root request with reply wanted.
    pub fn root_request(&mut self, point: usize) {
        let answer = self.call(point, |by, table, output| {
            (by.root_request)(table, output, 4, LIFETIME)
        });
        assert_eq!(answer, ACCEPTED);
    }

    pub fn ask(&mut self, point: usize, flags: u8, destination: usize, lifetime: u32) {
        let item = [&[flags][..], &address(destination)].concat();
        let answer = self.call(point, |by, table, output| {
            (by.ask)(table, output, lifetime, &item)
        });
        assert_eq!(answer, ACCEPTED);
    }

    pub fn report_break(&mut self, point: usize, neighbour: usize) {
        let answer = self.call(point, |by, table, output| {
            (by.report_break)(table, output, 0, &address(neighbour))
        });
        assert_eq!(answer, ACCEPTED);
    }

    /// Delivers a frame, by its number, to a point over a link of that metric, and returns the
    /// answer.
    pub fn deliver(&mut self, frame: usize, to: usize, link: u32) -> u32 {
        self.deliver_at(0, frame, to, link)
    }

    pub fn deliver_at(&mut self, clock: u64, frame: usize, to: usize, link: u32) -> u32 {
        let Sent { from, ref octets } = self.sent[frame];
        let element = octets[6..].to_vec();
        self.call(to, |by, table, output| {
            (by.receive)(table, output, clock, &address(from), link, &element)
        })
    }

    pub fn next_hop(&self, point: usize, destination: usize) -> (u32, Address) {
        let hop = (self.by.next_hop)(&self.tables[point], 0, &address(destination));
        (hop.answer, hop.address)
    }

    pub fn table(&self, point: usize) -> &[u8] {
        &self.tables[point]
    }
}
