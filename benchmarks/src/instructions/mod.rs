//! Counts how many instructions calls take. The program runs itself once more under valgrind's
//! callgrind. There it makes each call a few times, and callgrind writes a part of its output for
//! each. Only what lies between the call and its return is counted.

mod callgrind;
mod parts;

use std::collections::HashMap;
use std::path::Path;
use std::process::Command;
use std::{env, fs, process};

use hwmp_tests::implementation::Implementation;

use crate::contenders::Contender;
use crate::measuring::{self, Meter, Subject};
use crate::timing::Call;

pub use callgrind::counting;

/// With this argument the program counts, and prints nothing useful.
pub const ARGUMENT: &str = "--under-callgrind";

/// The name of the part that counts a bracket around nothing.
const BRACKET: &str = "bracket";

/// The total of instructions of each part.
pub struct Counts(HashMap<String, u64>);

impl Counts {
    /// Returns the instructions of one call, as the mean of `calls` calls.
    pub fn per_call(&self, subject: &Subject, by: &Implementation, calls: usize) -> f64 {
        let total = self.0[&part_name(subject, by)];
        total as f64 / calls as f64 - self.0[BRACKET] as f64
    }
}

fn part_name(subject: &Subject, by: &Implementation) -> String {
    format!("{}; R = {}; {}", subject.name, subject.rows, by.name)
}

struct Counter;

impl Meter for Counter {
    fn measure<Input>(
        &mut self,
        subject: Subject,
        call: Call<Implementation, Input>,
        inputs: &mut [Input],
        contenders: &[&Contender],
    ) {
        for by in contenders {
            for input in inputs.iter_mut() {
                call(&by.counted, input);
            }
            callgrind::end_part(&part_name(&subject, &by.timed));
        }
    }
}

/// Does what the program does under callgrind.
pub fn count(seed: u64) {
    counting(|| ());
    callgrind::end_part(BRACKET);
    measuring::measure_all(seed, &mut Counter);
}

/// Runs this program under callgrind, or returns the reason why it cannot.
pub fn counts() -> Result<Counts, String> {
    let output = env::temp_dir().join(format!("hwmp-callgrind.{}", process::id()));
    let counted = run(&output).map(|text| Counts(parts::totals(&text)));
    // There is no file if valgrind did not start.
    let _ = fs::remove_file(&output);
    counted
}

fn run(output: &Path) -> Result<String, String> {
    let program = env::current_exe().map_err(|error| error.to_string())?;
    let run = Command::new("valgrind")
        .args(["--tool=callgrind", "--collect-atstart=no"])
        .arg("--combine-dumps=yes")
        .arg(format!("--callgrind-out-file={}", output.display()))
        .arg(program)
        .arg(ARGUMENT)
        .output()
        .map_err(|error| format!("valgrind: {error}"))?;
    if !run.status.success() {
        let said = String::from_utf8_lossy(&run.stderr);
        return Err(format!("valgrind: {}: {said}", run.status));
    }
    fs::read_to_string(output).map_err(|error| error.to_string())
}

#[cfg(test)]
mod tests {
    use hwmp_tests::implementation::LIBRARY;

    use super::{BRACKET, Counts};
    use crate::measuring::Subject;

    #[test]
    fn takes_the_bracket_off_each_call() {
        let name = "fresh (0); R = 16; library";
        let totals = [(BRACKET, 20), (name, 8 * 120)];
        let counts = Counts(totals.map(|(name, total)| (name.into(), total)).into());
        let subject = Subject {
            name: "fresh (0)".into(),
            rows: 16,
        };
        assert_eq!(counts.per_call(&subject, &LIBRARY, 8), 100.0);
    }
}
