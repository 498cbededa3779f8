//! The bench obeys a whole command at once, while its input is still open.

use std::io::{BufRead, BufReader, Write};
use std::process::{ChildStdin, Stdio};
use std::sync::mpsc::{self, Receiver, RecvTimeoutError};
use std::thread;
use std::time::Duration;

use hwmp_tests::worked::address;

use crate::commands::{UNKNOWN, point};
use crate::program::{Program, Running};
use crate::worked::worked_case;

/// How long a line may take.
const LONGEST_WAIT: Duration = Duration::from_secs(10);

/// How long the test waits to see that nothing is printed.
const SILENCE: Duration = Duration::from_millis(20);

/// The program with its input held open, and the lines that it has printed so far.
struct Dialogue {
    running: Running,
    input: ChildStdin,
    lines: Receiver<String>,
}

impl Dialogue {
    fn begun() -> Dialogue {
        let mut running = Program::named().start(Stdio::piped());
        let input = running.0.stdin.take().expect("piped");
        let output = running.0.stdout.take().expect("piped");
        let (sender, lines) = mpsc::channel();
        thread::spawn(move || {
            let mut lines = BufReader::new(output).lines();
            lines.try_for_each(|line| sender.send(line.expect("lines of ASCII")))
        });
        Dialogue {
            running,
            input,
            lines,
        }
    }

    fn say(&mut self, octets: &[u8]) {
        let said = self.input.write_all(octets);
        said.expect("a program that reads on");
    }

    fn hear(&self, expected: &str) {
        match self.lines.recv_timeout(LONGEST_WAIT) {
            Ok(line) => assert_eq!(line, expected),
            Err(error) => panic!("no line {expected:?} while the input is open: {error}"),
        }
    }

    fn hear_nothing(&self) {
        let line = self.lines.recv_timeout(SILENCE);
        assert_eq!(line, Err(RecvTimeoutError::Timeout));
    }

    /// The program must end by itself, without another line.
    fn end(mut self) {
        let line = self.lines.recv_timeout(LONGEST_WAIT);
        assert_eq!(line, Err(RecvTimeoutError::Disconnected));
        let status = self.running.0.wait().expect("the program's end");
        assert!(status.success(), "{status}");
    }
}

#[test]
fn a_point_is_added_at_once() {
    let mut dialogue = Dialogue::begun();
    dialogue.say(&point(address(0), 0));
    dialogue.hear("1 0 0");
}

/// The run ends although more could be read.
#[test]
fn an_unknown_command_ends_the_run_at_once() {
    for unknown in UNKNOWN {
        let mut dialogue = Dialogue::begun();
        dialogue.say(&point(address(0), 0));
        dialogue.hear("1 0 0");
        dialogue.say(&[unknown]);
        dialogue.hear("E 11");
        dialogue.end();
    }
}

/// The worked case, with each line read before the next command is sent.
#[test]
fn each_command_of_the_case_is_obeyed_at_once() {
    let mut dialogue = Dialogue::begun();
    for (command, line) in worked_case() {
        dialogue.say(&command);
        dialogue.hear(line);
    }
}

#[test]
fn half_a_command_waits_for_the_other_half() {
    let mut dialogue = Dialogue::begun();
    for (command, line) in worked_case() {
        let (first, second) = command.split_at(command.len() / 2);
        dialogue.say(first);
        dialogue.hear_nothing();
        dialogue.say(second);
        dialogue.hear(line);
    }
}

/// Octets that come together with a whole command are kept for later.
#[test]
fn a_command_and_a_half_is_obeyed_as_far_as_it_goes() {
    let mut dialogue = Dialogue::begun();
    let mut begun = 0;
    let case = worked_case();
    for (place, (command, line)) in case.iter().enumerate() {
        let next = case.get(place + 1).map_or(&[][..], |(next, _)| next);
        let half = &next[..next.len() / 2];
        dialogue.say(&[&command[begun..], half].concat());
        dialogue.hear(line);
        dialogue.hear_nothing();
        begun = half.len();
    }
}
