//! Time for one call, of the library and of the second checker on the same findings; and of an earlier library, if one is given.

use crate::before::{self, Judge};
use crate::findings::Finding;
use comparison::library;
use second_checker::verdict::{self, Answer};
use std::time::{Duration, Instant};

/// How often each is timed, in turn, and for how long each time; the shortest time counts.
const ROUNDS: usize = if before::JUDGE.is_some() { 15 } else { 5 };
const ROUND: Duration = Duration::from_millis(60);

/// What a call takes in the mean over the findings, and how many visits they have together.
pub struct Times {
    pub visits: u32,
    pub library: Duration,
    pub second: Duration,
    pub before: Before,
}

/// What a call of the earlier library takes.
pub enum Before {
    /// There is no earlier library.
    None,
    Takes(Duration),
    /// It answers otherwise, so that its time says nothing.
    Differs,
}

impl Times {
    /// How many times as fast the library is.
    pub fn ratio(&self) -> f64 {
        self.second.as_secs_f64() / self.library.as_secs_f64()
    }

    /// How many times as fast it is as the earlier one, in a column of its own if there is one.
    pub fn against_before(&self) -> String {
        match self.before {
            Before::None => String::new(),
            Before::Takes(before) => format!(" {:>7.3}", before.as_secs_f64() / self.library.as_secs_f64()),
            Before::Differs => format!(" {:>7}", "differs"),
        }
    }

    pub fn per_visit(&self, call: Duration) -> f64 {
        call.as_secs_f64() * 1e9 / f64::from(self.visits.max(1))
    }
}

/// All on one finding.
pub fn time(finding: &Finding) -> Times {
    time_all(std::slice::from_ref(finding))
}

/// All on the same findings. The library and the second checker must agree: a fast wrong answer is none.
pub fn time_all(findings: &[Finding]) -> Times {
    let mut work = vec![0; 65_536];
    let mut visits = 0;
    for finding in findings {
        let answer = call(library::verdict, finding, &mut work);
        assert_eq!(answer, call(verdict::verdict, finding, &mut work), "{}: they do not agree", finding.title);
        visits += answer.count;
    }
    let before = agreeing(findings, &mut work);
    let mut times = Times { visits, library: Duration::MAX, second: Duration::MAX, before };
    for _ in 0..ROUNDS {
        times.library = times.library.min(round(library::verdict, findings, &mut work));
        if let (Before::Takes(before), Some(judge)) = (&mut times.before, before::JUDGE) {
            *before = round(judge, findings, &mut work).min(*before);
        }
        times.second = times.second.min(round(verdict::verdict, findings, &mut work));
    }
    times
}

/// Whether there is an earlier library, and it agrees on all the findings.
fn agreeing(findings: &[Finding], work: &mut [u8]) -> Before {
    let Some(judge) = before::JUDGE else { return Before::None };
    if findings.iter().all(|finding| call(judge, finding, work) == call(library::verdict, finding, work)) {
        return Before::Takes(Duration::MAX);
    }
    Before::Differs
}

fn call(judge: Judge, finding: &Finding, work: &mut [u8]) -> Answer {
    judge(&finding.first, &finding.second, &finding.formula, work, finding.budget)
}

/// The mean time of a call over one round, in which every finding is judged equally often.
fn round(judge: Judge, findings: &[Finding], work: &mut [u8]) -> Duration {
    let start = Instant::now();
    let mut calls = 0;
    while calls == 0 || start.elapsed() < ROUND {
        for finding in findings {
            std::hint::black_box(call(judge, finding, work));
            calls += 1;
        }
    }
    start.elapsed() / calls
}
