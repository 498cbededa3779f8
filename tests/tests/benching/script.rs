//! Streams with the lines that were worked out for them, asked of the program and of the reference.

use hwmp_tests::reference::bench;
use hwmp_tests::worked::address;

use crate::commands::{advance, link, point};
use crate::program::{Program, same};

pub const LIFETIME: u32 = 1000;

/// A command with its line.
pub type Step = (Vec<u8>, &'static str);

pub fn input(script: &[Step]) -> Vec<u8> {
    let commands: Vec<_> = script.iter().map(|(command, _)| &command[..]).collect();
    commands.concat()
}

pub fn output(script: &[Step]) -> String {
    script.iter().map(|(_, line)| format!("{line}\n")).collect()
}

/// The program and the reference must print exactly these lines.
pub fn prints(what: &str, script: &[Step]) {
    prints_all(what, &input(script), &output(script));
}

/// The program and the reference must print exactly this output for this input.
pub fn prints_all(what: &str, input: &[u8], expected: &str) {
    let outputs = [
        ("program", Program::named().output(input)),
        ("reference", bench::output(input)),
    ];
    for (name, found) in outputs {
        same(&found, expected, input, &format!("{what} by the {name}"));
    }
}

/// The program and the reference must print the lines, and then end the run at the command `bad`. A
/// command that would be accepted follows it.
pub fn ends(what: &str, script: &[Step], bad: &[u8]) {
    let good = input(script);
    let expected = format!("{}E {}\n", output(script), good.len());
    prints_all(what, &[&good, bad, &advance(0)].concat(), &expected);
}

pub fn points(count: u8) -> Vec<Step> {
    let added = (0..count).map(|place| (point(address(place.into()), 0), "1 0 0"));
    added.collect()
}

/// Returns points in a line, with links of metric 10.
pub fn line(count: u8) -> Vec<Step> {
    let links = (1..count).map(|place| (link(place - 1, place, 10), "3 0 0"));
    points(count).into_iter().chain(links).collect()
}

pub fn script(first: Vec<Step>, then: &[Step]) -> Vec<Step> {
    [&first, then].concat()
}
