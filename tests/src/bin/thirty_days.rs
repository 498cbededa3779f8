//! Runs thirty simulated days of sixteen points, once from clock 0 on and once up to the last
//! clock. The arguments are the mean number of incidents a day and, optionally, the seed. With
//! fewer than some hundred incidents a day, too little happens to pass the checks.

use std::env;
use std::process::exit;

use hwmp_tests::random::Random;
use hwmp_tests::thirty_days::{Days, STRETCHES};

const USAGE: &str = "thirty_days INCIDENTS_PER_DAY [SEED], both decimal";
const SEED: u64 = 2026;

fn main() {
    let Some((incidents_per_day, seed)) = operands() else {
        eprintln!("{USAGE}");
        exit(2);
    };
    println!("incidents per day: {incidents_per_day}, seed {seed}");
    for stretch in &STRETCHES {
        let days = Days::live(stretch, incidents_per_day, Random::new(seed));
        days.report(stretch.name);
        days.check();
    }
}

fn operands() -> Option<(u64, u64)> {
    let arguments = env::args().skip(1).map(|argument| argument.parse().ok());
    match arguments.collect::<Option<Vec<u64>>>()?[..] {
        [incidents_per_day] => Some((incidents_per_day, SEED)),
        [incidents_per_day, seed] => Some((incidents_per_day, seed)),
        _ => None,
    }
    .filter(|(incidents_per_day, _)| *incidents_per_day > 0)
}
