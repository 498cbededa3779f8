//! Times several implementations side by side: short batches in turn, again and again, and the
//! median of each. A disturbance of the machine then meets all of them alike.

use std::hint::black_box;
use std::time::Instant;

const ROUNDS: usize = 201;
const BATCH_NANOSECONDS: f64 = 200_000.0;

/// A call of one of the implementations on an input.
pub type Call<By, Input> = fn(&By, &mut Input) -> u32;

/// Returns the median nanoseconds per call, in the order of the implementations.
pub fn nanoseconds<By, Input>(
    call: Call<By, Input>,
    inputs: &mut [Input],
    bys: &[&By],
) -> Vec<f64> {
    let passes = passes(call, inputs, bys[0]);
    let mut samples = vec![Vec::with_capacity(ROUNDS); bys.len()];
    for round in 0..ROUNDS {
        for turn in 0..bys.len() {
            // Each round begins with another implementation.
            let which = (round + turn) % bys.len();
            samples[which].push(batch(call, inputs, bys[which], passes));
        }
    }
    samples.into_iter().map(median).collect()
}

/// Returns how often to go through the inputs to fill a batch. This also warms up.
fn passes<By, Input>(call: Call<By, Input>, inputs: &mut [Input], by: &By) -> usize {
    let once = batch(call, inputs, by, 100) * inputs.len() as f64;
    (BATCH_NANOSECONDS / once).ceil() as usize
}

/// Returns the nanoseconds per call over some passes through the inputs. It calls the
/// implementation through a pointer that the compiler cannot see through, so that nothing is
/// inlined here.
fn batch<By, Input>(call: Call<By, Input>, inputs: &mut [Input], by: &By, passes: usize) -> f64 {
    let start = Instant::now();
    for _ in 0..passes {
        for input in inputs.iter_mut() {
            black_box(call(black_box(by), black_box(input)));
        }
    }
    start.elapsed().as_nanos() as f64 / (passes * inputs.len()) as f64
}

fn median(mut samples: Vec<f64>) -> f64 {
    samples.sort_by(f64::total_cmp);
    samples[samples.len() / 2]
}
