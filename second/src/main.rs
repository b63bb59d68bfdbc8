//! The program `second`: writes cases, and times the two machines.

use second::cases::Writer;
use second::coverage::Coverage;
use second::explain::Explainer;
use second::generate::put_word;
use second::machine::{self, Kind};
use second::reader::Reader;
use second::segment::{Segment, Sex};
use second::set::{Set, WANTED};
use second::{bench, fast};
use std::fs::File;
use std::io::{self, BufRead, BufWriter, Write};
use std::process::ExitCode;
use std::time::Instant;

const USAGE: &str = "\
second, an interpreter of the bench of document 01, written apart

  second cases SEED --stdin FILE --stdout FILE
      the committed set: questions to one file, answers to the other;
      fails if a possible step outcome or refusal is missing
  second cases SEED --count N --stdin FILE --stdout FILE
      N fresh cases instead
  second cases SEED [--count N] --only K | --request R
      the lines of case K alone, or of the case that has the R-th request, set
      up from the start, each request with its answer
  second cases SEED [--count N] --table
      what the cases come to, by first byte and by refusal
  second answer
      reads lines of that format and answers them
  second explain
      reads lines of that format and says them in plain words
  second speed [STEPS]
      times the plain and the fast machine on one loop

docs/CASES.md has the format.
";

/// What `second cases` was asked for.
#[derive(Default)]
struct Wanted {
    seed: u64,
    count: Option<u64>,
    only: Option<u64>,
    request: Option<u64>,
    table: bool,
    stdin: Option<String>,
    stdout: Option<String>,
}

impl Wanted {
    /// The words after `cases`; `None` if they make no sense.
    fn read(arguments: &[String]) -> Option<Wanted> {
        let mut wanted = Wanted { seed: arguments.first()?.parse().ok()?, ..Wanted::default() };
        let mut rest = arguments.iter().skip(1);
        while let Some(word) = rest.next() {
            match word.as_str() {
                "--table" => wanted.table = true,
                "--count" => wanted.count = Some(rest.next()?.parse().ok()?),
                "--only" => wanted.only = Some(rest.next()?.parse().ok()?),
                "--request" => wanted.request = Some(rest.next()?.parse().ok()?),
                "--stdin" => wanted.stdin = Some(rest.next()?.clone()),
                "--stdout" => wanted.stdout = Some(rest.next()?.clone()),
                _ => return None,
            }
        }
        let somewhere = wanted.table || wanted.only.is_some() || wanted.request.is_some();
        (somewhere || (wanted.stdin.is_some() && wanted.stdout.is_some())).then_some(wanted)
    }
}

fn main() -> ExitCode {
    let arguments: Vec<String> = std::env::args().skip(1).collect();
    match arguments.split_first() {
        Some((word, rest)) if word == "cases" => match Wanted::read(rest) {
            Some(wanted) => cases(&wanted).unwrap_or_else(|error| {
                eprintln!("second: {error}");
                ExitCode::FAILURE
            }),
            None => usage(),
        },
        Some((word, _)) if word == "answer" => {
            let mut reader = Reader::default();
            each_line(|line| reader.line(line))
        }
        Some((word, _)) if word == "explain" => {
            let mut explainer = Explainer::default();
            each_line(|line| Some(explainer.line(line)))
        }
        Some((word, rest)) if word == "speed" => {
            speed(rest.first().and_then(|text| text.parse().ok()).unwrap_or(20_000_000))
        }
        _ => usage(),
    }
}

fn usage() -> ExitCode {
    eprint!("{USAGE}");
    ExitCode::FAILURE
}

/// Where lines go: a file, or, for one case alone, the terminal.
fn sink(path: &Option<String>, only: bool) -> io::Result<Box<dyn Write>> {
    Ok(match path {
        Some(path) => Box::new(BufWriter::with_capacity(1 << 16, File::create(path)?)),
        None if only => Box::new(io::stdout()),
        None => Box::new(io::sink()),
    })
}

fn cases(wanted: &Wanted) -> io::Result<ExitCode> {
    let only = match wanted.request {
        Some(request) => Some(case_of(wanted, request)?),
        None => wanted.only,
    };
    let questions = sink(&wanted.stdin, only.is_some())?;
    let answers = sink(&wanted.stdout, only.is_some())?;
    let mut writer = Writer::new(questions, answers, only);
    if let Some(number) = only {
        println!("# seed {}, case {number}", wanted.seed);
    }
    generate(wanted, only, &mut writer)?;
    let coverage = writer.finish()?;
    if only.is_some() {
        return Ok(ExitCode::SUCCESS);
    }
    if wanted.table {
        print!("{}", coverage.report());
    }
    eprint!("seed {}: {}", wanted.seed, coverage.summary(WANTED));
    Ok(verdict(&coverage, wanted.count.is_none()))
}

/// The committed set or fresh cases; no more of these than needed for one.
fn generate<Q: Write, A: Write>(
    wanted: &Wanted,
    only: Option<u64>,
    writer: &mut Writer<Q, A>,
) -> io::Result<()> {
    match wanted.count {
        Some(count) => Set::new(writer, wanted.seed).fresh(count.min(only.unwrap_or(count))),
        None => Set::new(writer, wanted.seed).committed(),
    }
}

/// The case that has the request with a number.
fn case_of(wanted: &Wanted, request: u64) -> io::Result<u64> {
    let mut writer = Writer::new(io::sink(), io::sink(), Some(0));
    writer.sought = Some(request);
    generate(wanted, None, &mut writer)?;
    writer.found.ok_or_else(|| io::Error::other("there is no such request"))
}

/// What is said to each line read, if anything.
fn each_line(mut said: impl FnMut(&str) -> Option<String>) -> ExitCode {
    let mut out = BufWriter::new(io::stdout().lock());
    for line in io::stdin().lock().lines() {
        let Ok(line) = line else { return ExitCode::FAILURE };
        if said(&line).is_some_and(|text| writeln!(out, "{text}").is_err()) {
            return ExitCode::FAILURE;
        }
    }
    match out.flush() {
        Ok(()) => ExitCode::SUCCESS,
        Err(_) => ExitCode::FAILURE,
    }
}

/// Complaints fail always; what is missing fails for the committed set.
fn verdict(coverage: &Coverage, committed: bool) -> ExitCode {
    let mut good = coverage.complaints.is_empty();
    for complaint in &coverage.complaints {
        eprintln!("  wrong: {complaint}");
    }
    if committed {
        let missing = coverage.missing_refusals();
        good &= missing.is_empty() && coverage.missing_steps(WANTED).is_empty();
        for line in missing {
            eprintln!("  missing: {line}");
        }
    }
    if good {
        ExitCode::SUCCESS
    } else {
        ExitCode::FAILURE
    }
}

/// An endless loop of sixteen steps: globals 1 and 2 are counted and summed,
/// and a routine with one parameter is called and returns.
fn loop_segment() -> Vec<u8> {
    let mut bytes = vec![0; 128];
    let sex = Sex::LeastFirst;
    for (word, value) in [(0, 11), (6, 1), (11, 2), (12, 15), (13, 40)] {
        put_word(&mut bytes, sex, word, value);
    }
    for (entry, data_size) in [(15, 4), (40, 1)] {
        put_word(&mut bytes, sex, entry, data_size);
        put_word(&mut bytes, sex, entry - 1, 22);
    }
    let main = [
        48, 237, 165, 1, // SLDO1 INCI SRO 1
        49, 48, 162, 165, 2, // SLDO2 SLDO1 ADI SRO 2
        48, 145, 2, // SLDO1 CPG 2
        138, 0xF2, // UJP back to the start
    ];
    // SLDL2 (the parameter), SLDC3, MPI, SSTL1, RPU 2 (local and parameter)
    let called = [33, 3, 140, 104, 150, 2];
    for (at, code) in [(32, &main[..]), (82, &called[..])] {
        for (place, byte) in bytes.iter_mut().skip(at).zip(code) {
            *place = *byte;
        }
    }
    bytes
}

fn speed(steps: u64) -> ExitCode {
    let bytes = loop_segment();
    let Ok(segment) = Segment::judge(&bytes) else { return ExitCode::FAILURE };
    let mut ends = Vec::new();
    for (name, runner) in [("machine", machine::turn as bench::Runner), ("fast", fast::turn)] {
        let mut region = vec![0; 200];
        let mut session = machine::starting_state(&segment, 200);
        let begin = Instant::now();
        let mut done = 0;
        while done < steps && session.kind == Kind::Ready {
            done += runner(&segment, &[], &mut region, &mut session, 65_535.min(steps - done));
        }
        let seconds = begin.elapsed().as_secs_f64();
        println!("{name:8} {done} steps in {seconds:.3} s, {:.1} million a second, {:?}",
            done as f64 / seconds / 1e6, session.kind);
        ends.push((region, session));
    }
    if ends.first() == ends.last() {
        ExitCode::SUCCESS
    } else {
        println!("the two differ");
        ExitCode::FAILURE
    }
}
