//! compare [SEED] [CALLS]: the proved store against the second program.

use harness::compare::Comparison;
use std::process::ExitCode;

const USAGE: &str = "usage: compare [SEED] [CALLS], both whole numbers; by default 1 and 1000000";

fn main() -> ExitCode {
    let arguments: Vec<String> = std::env::args().skip(1).collect();
    let numbers: Option<Vec<u64>> = arguments.iter().map(|word| word.parse().ok()).collect();
    let (seed, calls) = match numbers.as_deref() {
        Some([]) => (1, 1_000_000),
        Some(&[seed]) => (seed, 1_000_000),
        Some(&[seed, calls]) if calls > 0 => (seed, calls),
        _ => {
            eprintln!("compare: bad arguments: {}\n{USAGE}", arguments.join(" "));
            return ExitCode::from(2);
        }
    };
    println!("seed {seed}, {calls} calls\n");
    if Comparison::new(seed).run(calls) {
        ExitCode::SUCCESS
    } else {
        ExitCode::FAILURE
    }
}
