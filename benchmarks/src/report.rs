//! Keeps what was measured for the calls, and prints it as tables.

use hwmp_tests::implementation::Implementation;

use crate::contenders::Contender;
use crate::instructions::Counts;
use crate::measuring::{Meter, ROWS, Subject};
use crate::timing::{self, Call};

/// The places of the contenders in a line.
const LIBRARY: usize = 0;
pub const PLAIN: usize = 1;
pub const SAME: usize = 2;

/// The figures of one call at one number of rows, in the order of the contenders. `instructions` is
/// empty if they could not be counted.
struct Line {
    subject: Subject,
    instructions: Vec<f64>,
    nanoseconds: Vec<f64>,
}

struct Unit {
    name: &'static str,
    decimals: usize,
    figures: fn(&Line) -> &[f64],
}

const INSTRUCTIONS: Unit = Unit {
    name: "instructions",
    decimals: 0,
    figures: |line| &line.instructions,
};

const NANOSECONDS: Unit = Unit {
    name: "nanoseconds",
    decimals: 1,
    figures: |line| &line.nanoseconds,
};

pub struct Report {
    counts: Option<Counts>,
    lines: Vec<Line>,
}

impl Meter for Report {
    fn measure<Input>(
        &mut self,
        subject: Subject,
        call: Call<Implementation, Input>,
        inputs: &mut [Input],
        contenders: &[&Contender],
    ) {
        let bys: Vec<&Implementation> = contenders.iter().map(|by| &by.timed).collect();
        let instructions = match &self.counts {
            Some(counts) => {
                let per_call = |by: &&Implementation| counts.per_call(&subject, by, inputs.len());
                bys.iter().map(per_call).collect()
            }
            None => Vec::new(),
        };
        let nanoseconds = timing::nanoseconds(call, inputs, &bys);
        self.lines.push(Line {
            subject,
            instructions,
            nanoseconds,
        });
    }
}

impl Report {
    pub fn new(counts: Option<Counts>) -> Report {
        let lines = Vec::new();
        Report { counts, lines }
    }

    /// Prints the library next to another contender, with a line for each call that both were
    /// measured on.
    pub fn compare(&self, name: &str, other: usize) {
        println!(
            "{:<36}{:>28}{:>28}",
            "full tables", INSTRUCTIONS.name, NANOSECONDS.name
        );
        let columns = format!("{:>10}{name:>10}{:>8}", "library", "ratio");
        println!("{:<32}{:>4}{columns}{columns}", "", "R");
        let measured = |line: &&Line| line.nanoseconds.len() > other;
        let shown = |line: &&Line| [16, 128].contains(&line.subject.rows);
        for line in self.lines.iter().filter(measured).filter(shown) {
            let Subject { name, rows } = &line.subject;
            let instructions = side_by_side(line, &INSTRUCTIONS, other);
            let nanoseconds = side_by_side(line, &NANOSECONDS, other);
            println!("{name:<32}{rows:>4}{instructions}{nanoseconds}");
        }
        println!();
    }

    /// Prints how cost grows with the number of rows.
    pub fn growth(&self) {
        if self.counts.is_some() {
            self.growth_in(&INSTRUCTIONS);
        }
        self.growth_in(&NANOSECONDS);
    }

    fn growth_in(&self, unit: &Unit) {
        let Unit { name, figures, .. } = unit;
        let library = |line: &Line| figures(line)[LIBRARY];
        let plain = |line: &Line| figures(line)[PLAIN];
        self.by_rows(&format!("{name}, library"), unit.decimals, library);
        self.by_rows(&format!("{name}, plain"), unit.decimals, plain);
        let ratio = |line: &Line| library(line) / plain(line);
        self.by_rows(&format!("{name}, library/plain"), 2, ratio);
    }

    /// Prints a line for each call and a column for each number of rows. The figures were measured
    /// in this order.
    fn by_rows(&self, title: &str, decimals: usize, figure: impl Fn(&Line) -> f64) {
        let columns: String = ROWS.iter().map(|rows| format!("{rows:>9}")).collect();
        println!("{:<32}{columns}", format!("{title}; R ="));
        for lines in self.lines.chunks(ROWS.len()) {
            let figures = lines.iter().map(&figure);
            let figures: String = figures.map(|n| format!("{n:>9.decimals$}")).collect();
            println!("{:<32}{figures}", lines[0].subject.name);
        }
        println!();
    }
}

/// Returns dashes where nothing was measured.
fn side_by_side(line: &Line, unit: &Unit, other: usize) -> String {
    let figures = (unit.figures)(line);
    if figures.is_empty() {
        return format!("{:>10}{:>10}{:>8}", "-", "-", "-");
    }
    let (library, other) = (figures[LIBRARY], figures[other]);
    let decimals = unit.decimals;
    let ratio = library / other;
    format!("{library:>10.decimals$}{other:>10.decimals$}{ratio:>8.2}")
}
