//! Random streams of every kind.

use hwmp_tests::answers::{
    ABOUT_ITSELF, ACCEPTED, BAD_ADDRESS, BAD_LIST, FROM_ITSELF, METRIC_TOO_LARGE, NO_LIFETIME,
    NO_LINK, NO_MATCH, NO_ROUTE, STALE, TOO_LONG,
};
use hwmp_tests::comparing::{Listed, Tally};
use hwmp_tests::random::Random;
use hwmp_tests::reference::bench::{self, Done, Fault, Line};

use crate::faults::{crowd, cut, flood, junk, with_bad_command, with_cut_command};
use crate::lines::some_line;
use crate::lives::some_life;
use crate::program::{Program, same};
use crate::rings::some_ring;

const STREAMS: usize = 10_500;

/// The answers that each command can have, in the order of the commands, and how often each must
/// have occurred.
const LEAST_ANSWERED: u64 = 60;
const ANSWERS: [Listed; 8] = [
    ("point", &[ACCEPTED, BAD_ADDRESS]),
    ("advance", &[ACCEPTED]),
    ("link", &[ACCEPTED]),
    (
        "ask",
        &[ACCEPTED, BAD_ADDRESS, BAD_LIST, NO_LIFETIME, ABOUT_ITSELF],
    ),
    ("announce", &[ACCEPTED, NO_LIFETIME]),
    (
        "deliver",
        &[
            ACCEPTED,
            NO_LINK,
            METRIC_TOO_LARGE,
            FROM_ITSELF,
            ABOUT_ITSELF,
            STALE,
            NO_MATCH,
        ],
    ),
    ("break", &[ACCEPTED, FROM_ITSELF]),
    ("walk", &[ACCEPTED, BAD_LIST, NO_ROUTE, TOO_LONG]),
];

/// The commands on which a run can end, for each fault. All unknown commands count as 0.
const LEAST_ENDED: u64 = 10;
const ENDS: [Listed; 5] = [
    (UNKNOWN, &[0]),
    (CUT, &[1, 2, 3, 4, 5, 6, 7, 8]),
    (BAD_INDEX, &[3, 4, 5, 6, 7, 8]),
    (SEVENTEENTH, &[1]),
    (FRAME, &[4, 5, 6, 7]),
];
const UNKNOWN: &str = "E, unknown command";
const CUT: &str = "E, cut operand, by command";
const BAD_INDEX: &str = "E, bad index, by command";
const SEVENTEENTH: &str = "E, 17th point";
const FRAME: &str = "E, 129th frame, by command";

/// What accepted commands print in their third column.
const LEAST_THIRD: u64 = 15;
const THIRD: [Listed; 5] = [
    (DELIVERED, &[0, 1, 2]),
    (BROKEN, &[0, 1]),
    (MET, &[0, 1, 2, 3, 4, 5, 6, 7, 8, 9, 10, 11, 12]),
    (NO_WAY, &[0, 1, 2, 3, 4, 5, 6]),
    (ROUND, &[4, 5, 6, 7, 8, 9, 10, 11, 12, 13, 14, 15, 16]),
];
const DELIVERED: &str = "frames of a delivery";
const BROKEN: &str = "frames of a break";
const MET: &str = "hops with answer 0, 12 or more as 12";
const NO_WAY: &str = "hops with answer 41, 6 or more as 6";
const ROUND: &str = "hops with answer 42, 4 or fewer as 4";

#[derive(Default)]
struct Reached {
    answers: Tally,
    ends: Tally,
    third: Tally,
    whole: u64,
}

impl Reached {
    fn count(&mut self, input: &[u8], lines: &[Line]) {
        for line in lines {
            match line {
                Line::Done(done) => self.count_done(done),
                Line::Ended { offset, fault } => self.count_end(input[*offset], *fault),
            }
        }
        let ended = matches!(lines.last(), Some(Line::Ended { .. }));
        self.whole += u64::from(!ended);
    }

    fn count_done(&mut self, done: &Done) {
        let (name, _) = ANSWERS[usize::from(done.command) - 1];
        self.answers.count(name, done.answer);
        let third = done.third as u32;
        match (name, done.answer) {
            ("deliver", ACCEPTED) => self.third.count(DELIVERED, third),
            ("break", ACCEPTED) => self.third.count(BROKEN, third),
            ("walk", ACCEPTED) => self.third.count(MET, third.min(12)),
            ("walk", NO_ROUTE) => self.third.count(NO_WAY, third.min(6)),
            ("walk", TOO_LONG) => self.third.count(ROUND, third.max(4)),
            _ => {}
        }
    }

    fn count_end(&mut self, command: u8, fault: Fault) {
        let command = command.into();
        match fault {
            Fault::UnknownCommand => self.ends.count(UNKNOWN, 0),
            Fault::CutOperand => self.ends.count(CUT, command),
            Fault::BadIndex => self.ends.count(BAD_INDEX, command),
            Fault::SeventeenthPoint => self.ends.count(SEVENTEENTH, command),
            Fault::FrameBeyond128 => self.ends.count(FRAME, command),
            Fault::Clock => unreachable!("only streams of `long` take the clock to its end"),
        }
    }

    fn check(&self) {
        self.answers.report(&ANSWERS);
        self.ends.report(&ENDS);
        self.third.report(&THIRD);
        println!("runs without an E: {}", self.whole);
        self.answers.check(&ANSWERS, LEAST_ANSWERED);
        self.ends.check(&ENDS, LEAST_ENDED);
        self.third.check(&THIRD, LEAST_THIRD);
        assert!(self.whole >= STREAMS as u64 / 3);
    }
}

fn some_input(random: &mut Random) -> Vec<u8> {
    match random.below(64) {
        0..32 => some_life(random).without_end().to_vec(),
        32..36 => some_life(random).octets,
        36..39 => cut(&some_life(random), random),
        39..42 => with_cut_command(&some_life(random), random),
        42..52 => with_bad_command(&some_life(random), random),
        52 | 53 => some_ring(random).octets,
        54 | 55 => some_line(random).octets,
        56 | 57 => crowd(random),
        58 | 59 => flood(random),
        _ => junk(random),
    }
}

#[test]
fn program_and_reference_print_the_same() {
    let program = Program::named();
    let random = &mut Random::announced("streams", 0x0008_1778);
    let mut reached = Reached::default();
    let mut octets = 0;
    for number in 0..STREAMS {
        let input = some_input(random);
        let lines = bench::run(&input);
        let expected: String = lines.iter().map(Line::to_string).collect();
        same(
            &program.output(&input),
            &expected,
            &input,
            &format!("stream {number}"),
        );
        reached.count(&input, &lines);
        octets += input.len();
    }
    println!("streams compared: {STREAMS}, of {octets} octets");
    reached.check();
}
