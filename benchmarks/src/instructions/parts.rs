//! Reads the parts of callgrind's output, which stand one after another in one file.

use std::collections::HashMap;

const NAME: &str = "desc: Trigger: Client Request: ";
const TOTAL: &str = "totals: ";

/// Returns the instructions counted in each part that the program asked for, by its name. The part
/// that callgrind writes at the end has no name.
pub fn totals(output: &str) -> HashMap<String, u64> {
    let mut totals = HashMap::new();
    let mut part = None;
    for line in output.lines() {
        if let Some(name) = line.strip_prefix(NAME) {
            part = Some(name.to_string());
        }
        let Some(total) = line.strip_prefix(TOTAL) else {
            continue;
        };
        if let Some(name) = part.take() {
            totals.insert(name, total.parse().expect("a total is a number"));
        }
    }
    totals
}

#[cfg(test)]
mod tests {
    use super::totals;

    /// Output as callgrind 3.19 writes it, without most functions and without the beginnings of the
    /// parts.
    const OUTPUT: &str = "\
# callgrind format
version: 1
creator: callgrind-3.19.0
pid: 27939
part: 1

desc: Timerange: Basic block 0 - 63427
desc: Trigger: Client Request: fresh (0); R = 16; library

positions: line
events: Ir
summary: 18

fn=(1086) t::main
0 5
cfn=(1088) t::nothing
calls=1 0
0 13
totals: 18

part: 2

desc: Timerange: Basic block 63427 - 63437
desc: Trigger: Client Request: fresh (0); R = 16; reference

events: Ir
summary: 3217

totals: 3217

part: 3

desc: Timerange: Basic block 63850 - 64376
desc: Trigger: Program termination

events: Ir
summary: 7

totals: 7
";

    #[test]
    fn finds_each_named_part_and_no_other() {
        let found = totals(OUTPUT);
        assert_eq!(found["fresh (0); R = 16; library"], 18);
        assert_eq!(found["fresh (0); R = 16; reference"], 3217);
        assert_eq!(found.len(), 2);
    }

    #[test]
    #[should_panic(expected = "a total is a number")]
    fn passes_over_no_total_in_silence() {
        totals(&OUTPUT.replace("totals: 3217", "totals: 3 217"));
    }
}
