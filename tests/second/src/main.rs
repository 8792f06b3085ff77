//! The second program, and what compares the proved library with it. docs/TESTING.md says what each command is for.
mod current;
mod library;
mod mixed;
mod names;
mod program;
mod published;
mod random;
mod recording;
mod runs;
mod shrink;

use std::env;
use std::fs;
use std::process::ExitCode;
use std::time::Duration;

use library::calls::Library;
use library::compare::Bench;
use recording::Step;
use runs::Kind;

const USAGE: &str = "usage:
  second mixed CALLS SEED         compare on at least so many calls
  second long SECONDS SEED        compare for so long
  second first CALLS SEED         compare until something fails, which it must
  second run KIND SEED CALLS      one run again; KIND is rules, resets, refused, hostile or damage
  second record KIND SEED CALLS   write a run as a recording, by the second program alone
  second replay FILE..            print the second program's outcomes on recordings
  second compare FILE..           compare both on recordings
  second published                compare both with the published examples
  second names                    compare both on the static names and those beside them";

fn number(word: &str) -> Result<u64, String> {
    word.parse().map_err(|_| format!("no number: {word}"))
}

fn steps_of(file: &str) -> Result<Vec<Step>, String> {
    let text = fs::read_to_string(file).map_err(|error| format!("{file}: {error}"))?;
    recording::read(&text).map_err(|what| format!("{file}: {what}"))
}

/// A run again; true where nothing failed.
fn run_again(kind: Kind, seed: u64, calls: usize) -> bool {
    let mut library = Library::new();
    let (tally, failure) = mixed::one(kind, seed, calls, &mut library);
    if let Some((steps, difference)) = &failure {
        mixed::explain(kind, seed, calls, steps, difference, &mut library);
    }
    println!("run: {} calls compared", tally.calls());
    failure.is_none()
}

fn record(kind: Kind, seed: u64, calls: usize) -> Result<bool, String> {
    let mut bench = Bench::new(None);
    runs::recorded(kind, seed, calls, &mut bench).map_err(|difference| difference.what)?;
    println!("# A run of the kind {} from seed {seed}, written by the second program (tests/make_recordings).", kind.name());
    bench.steps.iter().for_each(|step| println!("{}", recording::line_of(step)));
    Ok(true)
}

fn replay(files: &[&str]) -> Result<bool, String> {
    for file in files {
        let mut bench = Bench::new(None);
        for step in steps_of(file)? {
            match step {
                Step::Call(call) => {
                    let outcome = bench.call(call.clone()).map_err(|difference| difference.what)?;
                    println!("{}", recording::outcome_line(&call, &outcome));
                }
                note => bench.note(note),
            }
        }
    }
    Ok(true)
}

fn compare(files: &[&str]) -> Result<bool, String> {
    let mut library = Library::new();
    for file in files {
        current::set(format!("second compare {file}"));
        let steps = steps_of(file)?;
        if let Some(difference) = shrink::differs(&steps, &mut library) {
            let line = recording::line_of(&steps[difference.step]);
            return Err(format!("{file}: step {}, {line}: {}", difference.step + 1, difference.what));
        }
        println!("compare: {file}: no difference on {} lines", steps.len());
    }
    Ok(true)
}

fn command(words: &[&str]) -> Result<bool, String> {
    let kind = |word: &str| Kind::named(word).ok_or_else(|| format!("no kind of run: {word}"));
    match *words {
        ["mixed", calls, seed] => Ok(mixed::all(mixed::Until::Calls(number(calls)?), number(seed)?)),
        ["long", seconds, seed] => Ok(mixed::all(mixed::Until::Time(Duration::from_secs(number(seconds)?)), number(seed)?)),
        ["first", calls, seed] => Ok(mixed::first(number(calls)?, number(seed)?)),
        ["run", word, seed, calls] => Ok(run_again(kind(word)?, number(seed)?, number(calls)? as usize)),
        ["record", word, seed, calls] => record(kind(word)?, number(seed)?, number(calls)? as usize),
        ["replay", ref files @ ..] => replay(files),
        ["compare", ref files @ ..] => compare(files),
        ["published"] => published::all(),
        ["names"] => names::all(),
        _ => Err(USAGE.to_string()),
    }
}

fn main() -> ExitCode {
    current::watch();
    let words: Vec<String> = env::args().skip(1).collect();
    let words: Vec<&str> = words.iter().map(String::as_str).collect();
    match command(&words) {
        Ok(true) => ExitCode::SUCCESS,
        Ok(false) => ExitCode::FAILURE,
        Err(what) => {
            eprintln!("{what}");
            ExitCode::FAILURE
        }
    }
}
