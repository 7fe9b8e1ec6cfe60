//! The two programs, and tools around them to compare many texts.

#![forbid(unsafe_code)]

use std::hint::black_box;
use std::io::{self, BufRead, BufWriter, Error, ErrorKind, Read, Write};
use std::process::ExitCode;
use std::time::Instant;

use second::make::{self, Counts};
use second::{check, run, run_audited, Outcome, GLUE_BYTES, JOINED_BYTES};

const USAGE: &str = "usage: second check | run | many | audit | \
                     make SEED COUNT | count SEED COUNT | bench";

fn main() -> ExitCode {
    let args: Vec<String> = std::env::args().skip(1).collect();
    let words: Vec<&str> = args.iter().map(String::as_str).collect();
    let mut out = BufWriter::new(io::stdout().lock());
    let result = command(&words, &mut out).and_then(|()| out.flush());
    match result {
        Ok(()) => ExitCode::SUCCESS,
        Err(error) if error.kind() == ErrorKind::BrokenPipe => ExitCode::SUCCESS,
        Err(error) => {
            // What was answered so far comes out before the complaint.
            let _ = out.flush();
            eprintln!("second: {error}");
            ExitCode::FAILURE
        }
    }
}

fn command(words: &[&str], out: &mut impl Write) -> io::Result<()> {
    match *words {
        ["check"] => show_check(out, &prefix(GLUE_BYTES + 1)?),
        ["run"] => show_run(out, &run(&prefix(JOINED_BYTES)?)),
        ["many"] => each(|program, text| match program {
            Program::Check => show_check(out, text),
            Program::Run => show_run(out, &run(text)),
        }),
        ["audit"] => each(|program, text| match program {
            Program::Check => show_check(out, text),
            Program::Run => show_run(out, &run_audited(text, u32::MAX).map_err(Error::other)?),
        }),
        ["make", seed, count] => make_texts(out, number(seed)?, number(count)?),
        ["count", seed, count] => {
            let seed = number(seed)?;
            let mut counts = Counts::default();
            (0..number(count)?).for_each(|at| counts.add(&run(&make::text(seed, at))));
            write!(out, "{counts}")
        }
        ["bench"] => bench(out),
        _ => Err(Error::new(ErrorKind::InvalidInput, USAGE)),
    }
}

fn number(word: &str) -> io::Result<u64> {
    word.parse().map_err(|_| Error::new(ErrorKind::InvalidInput, USAGE))
}

/// Standard input, but no more of it than decides the answer.
fn prefix(most: usize) -> io::Result<Vec<u8>> {
    let mut text = Vec::new();
    io::stdin().lock().take(most as u64).read_to_end(&mut text)?;
    Ok(text)
}

fn value(outcome: &Outcome) -> String {
    outcome.value.map_or("none".to_owned(), |datum| datum.to_string())
}

fn show_check(out: &mut impl Write, text: &[u8]) -> io::Result<()> {
    let (answer, line) = check(text);
    writeln!(out, "answer={answer}\nline={line}")
}

fn show_run(out: &mut impl Write, outcome: &Outcome) -> io::Result<()> {
    let Outcome { verdict, state, steps, .. } = outcome;
    writeln!(out, "answer={}\nline={}", verdict.answer, verdict.line)?;
    writeln!(out, "state={state}\nsteps={steps}\nvalue={}", value(outcome))
}

/// Which of the two programs a text is for.
enum Program {
    Check,
    Run,
}

/// A program and a byte count, from a line `check N` or `run N`.
fn header(line: &[u8]) -> Option<(Program, u64)> {
    let line = std::str::from_utf8(line.strip_suffix(b"\n")?).ok()?;
    let (word, digits) = line.split_once(' ')?;
    let program = match word {
        "check" => Program::Check,
        "run" => Program::Run,
        _ => return None,
    };
    let plain = digits.bytes().all(|b| b.is_ascii_digit());
    Some((program, digits.parse().ok().filter(|_| plain)?))
}

/// Calls `act` with each text of standard input, or with the part of it that
/// decides its answer.
fn each(mut act: impl FnMut(Program, &[u8]) -> io::Result<()>) -> io::Result<()> {
    let broken = |what: &str| Error::new(ErrorKind::InvalidData, what.to_owned());
    let mut input = io::BufReader::with_capacity(1 << 16, io::stdin().lock());
    let mut line = Vec::new();
    let mut text = Vec::new();
    loop {
        line.clear();
        (&mut input).take(27).read_until(b'\n', &mut line)?;
        if line.is_empty() {
            return Ok(());
        }
        let (program, length) = header(&line).ok_or_else(|| broken("a header is missing"))?;
        let most = match program {
            Program::Check => GLUE_BYTES + 1,
            Program::Run => JOINED_BYTES,
        };
        text.clear();
        let kept = length.min(most as u64);
        (&mut input).take(kept).read_to_end(&mut text)?;
        let dropped = io::copy(&mut (&mut input).take(length - kept), &mut io::sink())?;
        if text.len() as u64 + dropped != length {
            return Err(broken("the last text is cut short"));
        }
        act(program, &text)?;
    }
}

/// Each text twice: its glue for the checking program, the whole for the
/// running one.
fn make_texts(out: &mut impl Write, seed: u64, count: u64) -> io::Result<()> {
    for at in 0..count {
        let joined = make::text(seed, at);
        let glue = second::split(&joined).0;
        writeln!(out, "check {}", glue.len())?;
        out.write_all(glue)?;
        writeln!(out, "run {}", joined.len())?;
        out.write_all(&joined)?;
    }
    Ok(())
}

const LOOP: &[u8] = b"ret=int\nlocal=int 0\nlocal=int 1\nlabel=any,0,any any,0,any\n\
    set=v1 add mul v1 1103515245 12345\nset=v0 add v0 1\nif=0 lt v0 1000000000\nreturn=v1\n\
    run=1000000\n";

/// Speed of checking a 30 KB accepted text, and of an arithmetic loop.
fn bench(out: &mut impl Write) -> io::Result<()> {
    let joined = make::text_of(30_000).into_bytes();
    let glue = second::split(&joined).0;
    let rounds = 4_000;
    let start = Instant::now();
    for _ in 0..rounds {
        assert_eq!(black_box(check(black_box(glue))), (0, 0));
    }
    let seconds = start.elapsed().as_secs_f64();
    let bytes = (glue.len() * rounds) as f64;
    writeln!(out, "check: {} bytes, {:.1} MB/s", glue.len(), bytes / seconds / 1e6)?;

    let start = Instant::now();
    let steps: u64 = (0..100).map(|_| u64::from(black_box(run(black_box(LOOP))).steps)).sum();
    let seconds = start.elapsed().as_secs_f64();
    writeln!(out, "run: {steps} steps, {:.1} million steps/s", steps as f64 / seconds / 1e6)
}
