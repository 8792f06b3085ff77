//! The mixed runs: runs of every kind from one seed on, their tally, and what is said of a failure.
use std::time::{Duration, Instant};

use crate::current;
use crate::library::calls::Library;
use crate::library::compare::{Bench, Difference};
use crate::library::tally::Tally;
use crate::program::call::End;
use crate::random::Random;
use crate::recording::{line_of, Step};
use crate::runs::{self, Kind, KINDS};
use crate::shrink;

/// After so many failures no more runs are made.
const FAILURES_MOST: usize = 3;
/// The calls of the shortest and of the longest run.
const SHORTEST: u64 = 100;
const LONGEST: u64 = 4_000;

/// When to stop: after so many calls, or after so much time.
pub enum Until {
    Calls(u64),
    Time(Duration),
}

/// Makes one run through both; what went wrong, if something did.
pub fn one(kind: Kind, seed: u64, calls: usize, library: &mut Library) -> (Tally, Option<(Vec<Step>, Difference)>) {
    current::set(format!("second run {} {seed} {calls}", kind.name()));
    let mut bench = Bench::new(Some(library));
    let mut ran = runs::run(kind, seed, calls, &mut bench);
    for end in [End::Decoder, End::Encoder] {
        ran = ran.and_then(|()| bench.read_back(end).or_else(|what| bench.broken(what)));
    }
    (bench.tally, ran.err().map(|difference| (bench.steps, difference)))
}

/// Prints a failure: the run that shows it, and the shortest list of calls that does, as a recording.
pub fn explain(kind: Kind, seed: u64, calls: usize, steps: &[Step], difference: &Difference, library: &mut Library) {
    println!("FAILED: {}", difference.what);
    println!("  to reproduce: second run {} {seed} {calls}", kind.name());
    let (list, what) = match shrink::shrink(&steps[..=difference.step], library) {
        Some((list, difference)) => (list, difference.what),
        // Both programs agree and a claim over the list is broken.
        None => (steps[..=difference.step].to_vec(), difference.what.clone()),
    };
    println!("  as a recording of {} lines, at whose end {what}:", list.len());
    list.iter().for_each(|step| println!("{}", line_of(step)));
}

/// The runs of all kinds in turn, as a seed makes them.
struct Plan {
    seeds: Random,
    made: usize,
}

impl Plan {
    fn new(seed: u64) -> Plan {
        Plan { seeds: Random::new(seed), made: 0 }
    }

    /// The place of the next run's kind, its seed and its calls.
    fn next(&mut self) -> (usize, u64, usize) {
        let place = self.made % KINDS.len();
        self.made += 1;
        (place, self.seeds.next(), self.seeds.between(SHORTEST, LONGEST) as usize)
    }
}

/// Makes runs of all kinds and prints how it went; true where nothing failed and every answer was met.
pub fn all(until: Until, seed: u64) -> bool {
    let mut library = Library::new();
    let mut plan = Plan::new(seed);
    let mut tallies: [Tally; KINDS.len()] = Default::default();
    let mut times = [Duration::ZERO; KINDS.len()];
    let begun = Instant::now();
    let mut failures = 0;
    let over = |tallies: &[Tally]| match until {
        Until::Calls(most) => tallies.iter().map(Tally::calls).sum::<u64>() >= most,
        Until::Time(most) => begun.elapsed() >= most,
    };
    while !over(&tallies) && failures < FAILURES_MOST {
        let (place, seed, calls) = plan.next();
        let started = Instant::now();
        let (tally, failure) = one(KINDS[place], seed, calls, &mut library);
        times[place] += started.elapsed();
        tallies[place].add(&tally);
        if let Some((steps, difference)) = failure {
            failures += 1;
            explain(KINDS[place], seed, calls, &steps, &difference, &mut library);
        }
    }
    let mut sum = Tally::default();
    for ((kind, tally), time) in KINDS.iter().zip(&tallies).zip(&times) {
        println!("mixed runs: {:8} {:9} calls in {:6.1} s", kind.name(), tally.calls(), time.as_secs_f64());
        sum.add(tally);
    }
    sum.lines().iter().for_each(|line| println!("  {line}"));
    let missed = if failures == 0 { sum.missed() } else { Vec::new() };
    missed.iter().for_each(|line| println!("MISSED: {line}"));
    let (runs, seconds) = (plan.made, begun.elapsed().as_secs_f64());
    println!("mixed runs: {} calls compared in {runs} runs from seed {seed}, {seconds:.1} s, {failures} failures", sum.calls());
    failures == 0 && missed.is_empty()
}

/// Makes runs until one fails, at most so many calls; true where one did. It prints after how many calls, in which kind, and what.
pub fn first(most: u64, seed: u64) -> bool {
    let mut library = Library::new();
    let mut plan = Plan::new(seed);
    let mut compared = 0;
    while compared < most {
        let (place, seed, calls) = plan.next();
        let (tally, failure) = one(KINDS[place], seed, calls, &mut library);
        compared += tally.calls();
        if let Some((_, difference)) = failure {
            println!("{compared}\t{}\t{}", KINDS[place].name(), difference.what);
            return true;
        }
    }
    println!("nothing failed in {compared} calls");
    false
}
