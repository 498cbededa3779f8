//! Measures what the library costs compared with plain Rust and with Rust by the library's method:
//! in instructions, in time and in stack. RESULTS.txt has the output of one run, and
//! docs/PERFORMANCE.md explains it.

mod cases;
mod contenders;
mod element_cases;
mod instructions;
mod measuring;
mod report;
mod same_method;
mod stack;
mod timing;
mod walk_cases;

use hwmp_tests::probe;
use hwmp_tests::random::Random;

use element_cases::ELEMENT_CASES;
use instructions::Counts;
use report::{PLAIN, Report, SAME};

fn main() {
    println!("machine: {}", machine());
    let seed = Random::announced("tables and elements", 2026).number();
    if std::env::args().any(|argument| argument == instructions::ARGUMENT) {
        return instructions::count(seed);
    }
    println!("plain: the separately written reference; same: Rust by the library's method");
    println!("instructions: of the call alone, the mean of several tables, by callgrind");
    println!("nanoseconds: the median of interleaved rounds, with what mends the table or steps");
    println!("the element's number after a call; all are release builds");
    println!();
    compare_calls(counts(), seed);
    let random = &mut Random::new(seed);
    compare_elements(random);
    println!();
    print_stack(random);
}

fn machine() -> String {
    let info = std::fs::read_to_string("/proc/cpuinfo").unwrap_or_default();
    let model = info
        .lines()
        .find_map(|line| line.strip_prefix("model name"));
    model.map_or("unknown".into(), |name| {
        name.trim_start_matches(['\t', ' ', ':']).into()
    })
}

fn counts() -> Option<Counts> {
    let counts = instructions::counts();
    if let Err(reason) = &counts {
        println!("instructions were not counted: {reason}");
        println!();
    }
    counts.ok()
}

fn compare_calls(counts: Option<Counts>, seed: u64) {
    let mut report = Report::new(counts);
    measuring::measure_all(seed, &mut report);
    report.compare("plain", PLAIN);
    report.compare("same", SAME);
    report.growth();
}

fn compare_elements(random: &mut Random) {
    println!(
        "{:<32}{:>4}{:>10}{:>10}{:>8}",
        "largest elements, nanoseconds", "N", "library", "plain", "ratio"
    );
    for case in &ELEMENT_CASES {
        let mut inputs = element_cases::inputs(case, random);
        let bys = [&probe::LIBRARY, &probe::REFERENCE];
        element_cases::confirm(case, &mut inputs, &bys);
        let times = timing::nanoseconds(case.call, &mut inputs, &bys);
        let [library, plain] = times[..] else {
            unreachable!("one time for each implementation")
        };
        println!(
            "{:<32}{:>4}{library:>10.1}{plain:>10.1}{:>8.2}",
            case.name,
            case.count,
            library / plain
        );
    }
}

fn print_stack(random: &mut Random) {
    let mut depths = stack::depths(random).to_vec();
    depths.push(stack::receive_depth(random));
    depths.push(stack::walk_depth(random));
    depths.extend(stack::element_depths(random));
    for (entry, octets) in depths {
        println!("stack of {entry}: {octets} octets");
    }
}
