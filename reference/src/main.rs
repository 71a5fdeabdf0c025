//! A second reading of document 01, and of the finder, the trivially true steps, the AIGER text and the constraints of
//! document 02, in plain Rust, to test the checker against.

mod aiger;
mod answers;
mod cnf;
mod finder;
mod job;
mod make;
mod models;
mod problem;
mod random;
mod refutation;
mod requests;
mod selfcheck;
mod splitting;
mod text;
mod witness;

use std::io::{self, BufReader, BufWriter, Read, Write};
use std::process::ExitCode;

const USAGE: &str = "usage:
  reference answer < requests > answers
  reference against ANSWERS < requests   the first request that these answers answer otherwise
  reference make SEED KIND COUNT > requests
      KIND: cnf, problem, limits, witness, cases, refute, find, trivial, aiger, texts; of version 2 constraints,
      constraint-limits, constraint-witness, constraint-cases, constraint-refute, constraint-find; broken with the
      number of a stream for COUNT
  reference streams                 how many broken streams there are
  reference tally SEED KIND COUNT   how often each call gives each answer, and at how many places
  reference selfcheck SEED
  reference text < jobfile
  reference job WORD... > jobfile
  reference jobs SEED COUNT FOLDER
  reference constraint-jobs SEED COUNT FOLDER";

fn number<T: std::str::FromStr>(text: &str) -> Result<T, String> {
    text.parse().map_err(|_| format!("{text} is not a number"))
}

fn answer() -> Result<(), String> {
    let mut out = BufWriter::with_capacity(1 << 16, io::stdout().lock());
    let answered = answers::answer_all(&mut BufReader::new(io::stdin().lock()), &mut out);
    out.flush().map_err(|error| error.to_string())?;
    answered
}

fn against(answers: &str) -> Result<(), String> {
    let theirs = std::fs::read(answers).map_err(|error| format!("{answers}: {error}"))?;
    match answers::first_difference(&mut BufReader::new(io::stdin().lock()), &theirs) {
        Some(difference) => print(format!("{difference}\n").as_bytes()),
        None => print(b"no request is answered otherwise\n"),
    }
}

fn job_text() -> Result<(), String> {
    let mut bytes = Vec::new();
    // One byte past the limit is enough to know that there are more.
    let most = job::MOST_BYTES as u64 + 1;
    let failed = |error: io::Error| error.to_string();
    io::stdin().lock().take(most).read_to_end(&mut bytes).map_err(failed)?;
    print(job::text(&bytes).as_bytes())
}

fn print(bytes: &[u8]) -> Result<(), String> {
    io::stdout().lock().write_all(bytes).map_err(|error| error.to_string())
}

fn make_requests(seed: &str, kind: &str, count: &str) -> Result<(), String> {
    let bytes = make::make(number(seed)?, kind, number(count)?);
    print(&bytes.ok_or_else(|| format!("no kind {kind}"))?)
}

fn tally(seed: &str, kind: &str, count: &str) -> Result<(), String> {
    let made = make::requests(number(seed)?, kind, number(count)?);
    let made = made.ok_or_else(|| format!("no kind {kind}"))?;
    for ((call, answer, found), mut places) in answers::tally(&made) {
        let (times, found) =
            (places.len(), found.map_or(String::new(), |byte| format!(" first byte {byte}")));
        places.sort();
        places.dedup();
        let different = places.len();
        print(format!("call {call} answer {answer}{found}: {times}, {different} places\n").as_bytes())?;
    }
    Ok(())
}

fn write_jobs(files: &[Vec<u8>], folder: &str) -> Result<(), String> {
    for (at, bytes) in files.iter().enumerate() {
        let path = format!("{folder}/{at:04}.job");
        std::fs::write(&path, bytes).map_err(|error| format!("{path}: {error}"))?;
    }
    Ok(())
}

fn run(arguments: &[&str]) -> Result<(), String> {
    match arguments {
        ["answer"] => answer(),
        ["against", answers] => against(answers),
        ["make", seed, kind, count] => make_requests(seed, kind, count),
        ["tally", seed, kind, count] => tally(seed, kind, count),
        ["streams"] => print(format!("{}\n", make::streams()).as_bytes()),
        ["selfcheck", seed] => match selfcheck::run(number(seed)?) {
            true => Ok(()),
            false => Err("the self check failed".to_string()),
        },
        ["text"] => job_text(),
        ["job", words @ ..] => {
            let words: Result<Vec<u32>, String> = words.iter().map(|word| number(word)).collect();
            print(&job::file(1, &words?))
        }
        ["jobs", seed, count, folder] => write_jobs(&make::job_files(number(seed)?, number(count)?), folder),
        ["constraint-jobs", seed, count, folder] => {
            write_jobs(&make::constraints::job_files(number(seed)?, number(count)?), folder)
        }
        _ => Err(USAGE.to_string()),
    }
}

fn main() -> ExitCode {
    let arguments: Vec<String> = std::env::args().skip(1).collect();
    let arguments: Vec<&str> = arguments.iter().map(String::as_str).collect();
    match run(&arguments) {
        Ok(()) => ExitCode::SUCCESS,
        Err(message) => {
            eprintln!("{message}");
            ExitCode::FAILURE
        }
    }
}
