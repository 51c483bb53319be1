//! Compares the library with the second checker on random findings: `compare [FINDINGS [SEED]]`.

use comparison::library;
use comparison::run::run;
use std::process::ExitCode;
use std::time::Instant;

const FINDINGS: u64 = 20_000;
const SEEDS: [u64; 5] = [1, 20, 300, 4000, 50_000];
/// So many differences are printed in full; later ones are only counted.
const PRINTED: u64 = 3;

fn main() -> ExitCode {
    let arguments: Result<Vec<u64>, _> = std::env::args().skip(1).map(|argument| argument.parse()).collect();
    let (findings, seeds) = match arguments.as_deref() {
        Ok([]) => (FINDINGS, SEEDS.to_vec()),
        Ok([findings]) => (*findings, SEEDS.to_vec()),
        Ok([findings, seed]) => (*findings, vec![*seed]),
        _ => {
            eprintln!("usage: compare [FINDINGS [SEED]]");
            return ExitCode::from(2);
        }
    };
    compare(findings, &seeds)
}

fn compare(findings: u64, seeds: &[u64]) -> ExitCode {
    let start = Instant::now();
    let mut seen = 0;
    let run = run(findings, seeds, library::verdict, |difference| {
        seen += 1;
        if seen <= PRINTED {
            println!("{difference}");
        }
    });
    println!("{findings} findings, seeds {seeds:?}, {:.1} s", start.elapsed().as_secs_f64());
    print!("{}{}", run.shares, run.names);
    println!("{} differences", run.differences);
    let under_floor = run.under_floor();
    if !under_floor.is_empty() {
        println!("under their floor: {}", under_floor.join(", "));
    }
    if run.passed() {
        ExitCode::SUCCESS
    } else {
        ExitCode::FAILURE
    }
}
