//! Makes every call on full tables of every size. The inputs are the same whatever is measured.

use hwmp_tests::implementation::Implementation;
use hwmp_tests::random::Random;

use crate::cases::{self, Case, EMITTING, RECEIVING, SILENT};
use crate::contenders::{Contender, LIBRARY, REFERENCE, SAME_METHOD};
use crate::timing::Call;
use crate::walk_cases::{self, POINTS};

/// The numbers of rows.
pub const ROWS: [usize; 8] = [1, 2, 4, 8, 16, 32, 64, 128];

/// One call at one number of rows.
pub struct Subject {
    pub name: String,
    pub rows: usize,
}

/// Measures a call by each of several implementations.
pub trait Meter {
    fn measure<Input>(
        &mut self,
        subject: Subject,
        call: Call<Implementation, Input>,
        inputs: &mut [Input],
        contenders: &[&Contender],
    );
}

/// Measures all calls by the library and the reference. The calls that emit nothing are also
/// measured in Rust by the library's method.
pub fn measure_all(seed: u64, meter: &mut impl Meter) {
    for case in &SILENT {
        measure_case(case, seed, &[&LIBRARY, &REFERENCE, &SAME_METHOD], meter);
    }
    for case in EMITTING.iter().chain(&RECEIVING) {
        measure_case(case, seed, &[&LIBRARY, &REFERENCE], meter);
    }
    for points in POINTS {
        measure_walk(points, seed, &[&LIBRARY, &REFERENCE], meter);
    }
}

fn measure_case(case: &Case, seed: u64, contenders: &[&Contender], meter: &mut impl Meter) {
    for rows in ROWS {
        let mut inputs = cases::inputs(case, rows, &mut Random::new(seed));
        cases::confirm(case, rows, &inputs, &timed(contenders));
        let name = format!("{} ({})", case.name, case.answer);
        let subject = Subject { name, rows };
        meter.measure(subject, case.call, &mut inputs, contenders);
    }
}

fn measure_walk(points: usize, seed: u64, contenders: &[&Contender], meter: &mut impl Meter) {
    for rows in ROWS {
        let mut inputs = walk_cases::inputs(points, rows, &mut Random::new(seed));
        walk_cases::confirm(&inputs, &timed(contenders));
        let name = format!("walk through all of {points} (0)");
        let subject = Subject { name, rows };
        meter.measure(subject, walk_cases::walk, &mut inputs, contenders);
    }
}

fn timed<'a>(contenders: &[&'a Contender]) -> Vec<&'a Implementation> {
    contenders.iter().map(|by| &by.timed).collect()
}
