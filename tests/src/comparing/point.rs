use crate::answers::ACCEPTED;
use crate::fence::Fence;
use crate::implementation::{Implementation, REFERENCE};
use crate::library::Outcome;
use crate::random::Random;
use crate::received::Received;
use crate::stand_ins::tested;
use crate::tables;

use super::lending::{lend, lend_address};
use super::pair::Pair;
use super::tally::Tally;

/// What the comparisons of one test share. Operands are lent next to the fence.
pub struct Run {
    pub random: Random,
    pub answers: Tally,
    fence: Fence,
    element_fence: Fence,
}

impl Run {
    pub fn announced(purpose: &str, seed: u64) -> Run {
        Run::new(Random::announced(purpose, seed))
    }

    pub fn new(random: Random) -> Run {
        Run {
            random,
            answers: Tally::default(),
            fence: Fence::build(),
            element_fence: Fence::build(),
        }
    }
}

/// A table that both implementations have, and the calls compared on it.
pub struct Point {
    table: Pair,
    /// The table before the last call.
    before: Vec<u8>,
    /// What the last call that may emit wrote.
    emitted: Vec<u8>,
}

impl Point {
    pub fn new(table: &[u8], random: &mut Random) -> Point {
        Point {
            table: Pair::new(table, random),
            before: Vec::with_capacity(table.len()),
            emitted: Vec::new(),
        }
    }

    pub fn table(&self) -> &[u8] {
        self.table.octets()
    }

    /// The table before the last call.
    pub fn before(&self) -> &[u8] {
        &self.before
    }

    /// Returns the frames of the last call that may emit.
    pub fn emitted(&self) -> &[u8] {
        &self.emitted
    }

    fn keep_before(&mut self) {
        self.before.clear();
        self.before.extend_from_slice(self.table.octets());
    }

    /// Changes the table of both implementations, as a call that is not compared would.
    pub fn change(&mut self, change: impl Fn(&mut [u8])) {
        change(self.table.of_library());
        change(self.table.of_reference());
    }

    /// Makes one call on both implementations. Answers and all octets, guards included, must agree.
    /// `what` describes the call, and is only used if something differs.
    fn compare<A: PartialEq + std::fmt::Debug>(
        &mut self,
        what: impl Fn() -> String,
        call: impl Fn(&Implementation, &mut [u8]) -> A,
    ) -> A {
        self.keep_before();
        let found = call(tested(), self.table.of_library());
        let expected = call(&REFERENCE, self.table.of_reference());
        let on = || format!("{} on {:?}", what(), self.before);
        assert_eq!(found, expected, "{}: answers differ", on());
        if let Some(octet) = self.table.difference() {
            panic!("{}: octet {octet} of the table differs", on());
        }
        found
    }

    /// Makes one call that may emit on both implementations, with some output. Answers and all
    /// octets must agree. Without the reference it also checks that output beyond the frames is
    /// unchanged and that a refusal returns zeros and leaves the table.
    fn compare_emitting(
        &mut self,
        what: impl Fn() -> String,
        call: impl Fn(&Implementation, &mut [u8], &mut [u8]) -> Outcome,
        random: &mut Random,
    ) -> Outcome {
        self.keep_before();
        let blank = vec![random.octet(); tables::some_output_length(random)];
        let mut output = Pair::new(&blank, random);
        let on = || {
            let (what, room, before) = (what(), blank.len(), &self.before);
            format!("{what} with an output of {room} on {before:?}")
        };
        let found = call(tested(), self.table.of_library(), output.of_library());
        let expected = call(&REFERENCE, self.table.of_reference(), output.of_reference());
        assert_eq!(found, expected, "{}: outcomes differ", on());
        for (name, pair) in [("table", &self.table), ("output", &output)] {
            if let Some(octet) = pair.difference() {
                panic!("{}: octet {octet} of the {name} differs", on());
            }
        }
        let beyond = found.octets as usize;
        let left_alone = output.octets()[beyond..] == blank[beyond..];
        assert!(left_alone, "{}: output beyond {beyond} changed", on());
        if found.answer != ACCEPTED {
            assert_eq!((found.frames, found.octets), (0, 0), "{}: no zeros", on());
            assert!(self.before == self.table(), "{}: refused but changed", on());
        }
        self.emitted.clear();
        self.emitted.extend(&output.octets()[..beyond]);
        found
    }

    pub fn fresh(&mut self, own: [u8; 6], number: u32, run: &mut Run) {
        let what = || format!("fresh({own:?}, {number})");
        let own = lend_address(own, &mut run.fence, &mut run.random);
        let answer = self.compare(what, |by, table| (by.fresh)(table, own, number));
        run.answers.count("fresh", answer);
    }

    pub fn forget(&mut self, destination: [u8; 6], run: &mut Run) {
        let what = || format!("forget({destination:?})");
        let destination = lend_address(destination, &mut run.fence, &mut run.random);
        let answer = self.compare(what, |by, table| (by.forget)(table, destination));
        run.answers.count("forget", answer);
    }

    pub fn next_hop(&mut self, clock: u64, destination: [u8; 6], run: &mut Run) {
        let what = || format!("next hop({clock}, {destination:?})");
        let destination = lend_address(destination, &mut run.fence, &mut run.random);
        let hop = self.compare(what, |by, table| (by.next_hop)(table, clock, destination));
        run.answers.count("next hop", hop.answer);
    }

    pub fn ask(&mut self, lifetime: u32, items: &[u8], run: &mut Run) -> Outcome {
        let lent = lend(items, &mut run.fence, &mut run.random);
        let outcome = self.compare_emitting(
            || format!("ask({lifetime}, {items:?})"),
            |by, table, output| (by.ask)(table, output, lifetime, lent),
            &mut run.random,
        );
        assert_eq!(lent, items, "the items were changed");
        run.answers.count("ask", outcome.answer);
        outcome
    }

    pub fn announce(&mut self, flags: u8, lifetime: u32, run: &mut Run) -> Outcome {
        let outcome = self.compare_emitting(
            || format!("announce({flags}, {lifetime})"),
            |by, table, output| (by.announce)(table, output, flags, lifetime),
            &mut run.random,
        );
        run.answers.count("announce", outcome.answer);
        outcome
    }

    pub fn root_request(&mut self, flags: u8, lifetime: u32, run: &mut Run) -> Outcome {
        let outcome = self.compare_emitting(
            || format!("root request({flags}, {lifetime})"),
            |by, table, output| (by.root_request)(table, output, flags, lifetime),
            &mut run.random,
        );
        run.answers.count("root request", outcome.answer);
        outcome
    }

    pub fn report_break(&mut self, clock: u64, neighbour: [u8; 6], run: &mut Run) -> Outcome {
        let lent = lend_address(neighbour, &mut run.fence, &mut run.random);
        let outcome = self.compare_emitting(
            || format!("break({clock}, {neighbour:?})"),
            |by, table, output| (by.report_break)(table, output, clock, lent),
            &mut run.random,
        );
        run.answers.count("break", outcome.answer);
        outcome
    }

    pub fn receive(&mut self, received: &Received, run: &mut Run) -> Outcome {
        let &Received {
            clock,
            transmitter,
            link_metric,
            ref element,
        } = received;
        let transmitter = lend_address(transmitter, &mut run.fence, &mut run.random);
        let lent = lend(element, &mut run.element_fence, &mut run.random);
        let outcome = self.compare_emitting(
            || format!("{received:?}"),
            |by, table, output| (by.receive)(table, output, clock, transmitter, link_metric, lent),
            &mut run.random,
        );
        assert_eq!(lent, element, "the element was changed");
        run.answers.count("receive", outcome.answer);
        outcome
    }
}
