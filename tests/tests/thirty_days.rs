//! Thirty simulated days of sixteen points, twice: from clock 0 on, and up to the last clock. The
//! program `thirty_days` runs them with any number of incidents a day.

use hwmp_tests::random::Random;
use hwmp_tests::thirty_days::{Days, STRETCHES, Stretch};

const INCIDENTS_PER_DAY: u64 = 2000;

fn live(stretch: &Stretch, seed: u64) {
    let random = Random::announced(stretch.name, seed);
    let days = Days::live(stretch, INCIDENTS_PER_DAY, random);
    days.report(stretch.name);
    days.check();
}

#[test]
fn from_the_first_clock_on() {
    live(&STRETCHES[0], 0x0030_1778);
}

#[test]
fn up_to_the_last_clock() {
    live(&STRETCHES[1], 0x0048_1778);
}
