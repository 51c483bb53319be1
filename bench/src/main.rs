//! The library against the second checker, in one run on one machine.

mod before;
mod build;
mod clock;
mod findings;
mod numbers;

use clock::Times;
use findings::Finding;
use numbers::Width;
use std::time::Duration;

fn main() {
    println!("All judge the same findings, in turn, on one thread; the shortest of several rounds counts.");
    println!("Work bytes: 65,536, cleared before the first call; each call clears them again, and that is timed.");
    versus(&[
        findings::epassport(),
        findings::large_states(),
        findings::silent_steps(),
        findings::deep_replication(),
        findings::deep_replication_silent(),
    ]);
    growth("threads", &[1, 2, 4, 8, 16, 30].map(findings::with_threads));
    growth("nodes of each of 8 messages", &[0, 1, 2, 3, 4, 5].map(findings::with_messages));
    growth("negations", &[1, 10, 20, 30, 40, 46].map(findings::with_formula));
    growth("conjuncts", &[1, 10, 20, 30, 40, 46].map(findings::with_conjuncts));
    growth("bytes of the model", &[32, 128, 512, 1024, 2048, 4096].map(findings::with_model));
    reading();
    numbers("read", numbers::read);
    numbers("read and judge", numbers::judged);
}

/// The columns: a first number of the library's own, then the library and the second checker, and how many times as fast the library is as
/// each of the others.
fn heading(what: &str, first: &str) {
    let before = if before::JUDGE.is_some() { format!(" {:>7}", "before") } else { String::new() };
    println!("\n{what:32} {first:>7} {:>16} {:>16} {:>7}{before}", "library", "second checker", "ratio");
}

/// Visits a second of both, and how many times as fast the library is.
fn versus(findings: &[Finding]) {
    heading("visits a second", "visits");
    for finding in findings {
        let times = clock::time(finding);
        let rate = |call| 1e9 / times.per_visit(call);
        println!(
            "{:32} {:>7} {:>16.0} {:>16.0} {:>7.2}{}",
            finding.title,
            times.visits,
            rate(times.library),
            rate(times.second),
            times.ratio(),
            times.against_before()
        );
    }
}

/// What a visit costs as one thing grows.
fn growth(what: &str, findings: &[Finding]) {
    heading(&format!("ns a visit, by {what}"), "visits");
    for finding in findings {
        let times = clock::time(finding);
        row(&finding.title, &times, times.per_visit(times.library), times.per_visit(times.second));
    }
}

fn row(title: &str, times: &Times, library: f64, second: f64) {
    let (ratio, before) = (times.ratio(), times.against_before());
    println!("{title:>32} {:>7} {library:>16.0} {second:>16.0} {ratio:>7.2}{before}", times.visits);
}

/// Two models of 4,096 bytes, read and no more.
fn reading() {
    let finding = findings::reading();
    let times = clock::time(&finding);
    let micros = |call: Duration| call.as_secs_f64() * 1e6 / 2.0;
    heading("microseconds", "bytes");
    let (ratio, before) = (times.ratio(), times.against_before());
    let (library, second) = (micros(times.library), micros(times.second));
    println!("{:32} {:>7} {library:>16.1} {second:>16.1} {ratio:>7.2}{before}", "to read a model", finding.first.len());
}

/// What a byte costs in models of 4,096 bytes, and in the first column a number, by how many bytes the numbers of names take.
fn numbers(what: &str, findings: impl Fn(Width) -> Vec<Finding>) {
    heading(&format!("ns a byte, to {what}"), "number");
    for width in Width::ALL {
        let findings = findings(width);
        let times = clock::time_all(&findings);
        let each = |call: Duration, many: usize| call.as_secs_f64() * 1e9 * findings.len() as f64 / many as f64;
        let (bytes, numbers) = (numbers::bytes(&findings), numbers::numbers(&findings));
        println!(
            "{:32} {:>7.2} {:>16.2} {:>16.2} {:>7.2}{}",
            width.title(),
            each(times.library, numbers),
            each(times.library, bytes),
            each(times.second, bytes),
            times.ratio(),
            times.against_before()
        );
    }
}
