//! A second reading of the rules for glue texts: a checker and a stepper that
//! share no code with the proved ones, to compare verdicts and speed with.

#![forbid(unsafe_code)]

pub mod audit;
mod lex;
pub mod machine;
pub mod make;
pub mod program;
pub mod reader;
mod spell;
pub mod store;
pub mod typing;

#[cfg(test)]
mod tests;

use machine::{Datum, Machine};
use program::Program;
use store::Store;

/// Longest glue text that is read.
pub const GLUE_BYTES: usize = 32_768;
/// Longest store text that is read.
pub const STORE_BYTES: usize = 16_384;
/// A prefix this long decides every joined text: if it is full, the glue or
/// the store is too long.
pub const JOINED_BYTES: usize = GLUE_BYTES + STORE_BYTES + 1;

/// Answer number and the line it names.
#[derive(Clone, Copy, Debug, PartialEq, Eq)]
pub struct Verdict {
    pub answer: u32,
    pub line: u32,
}

impl Verdict {
    pub const ACCEPTED: Verdict = Verdict { answer: 0, line: 0 };

    pub(crate) fn new(answer: u32, line: usize) -> Self {
        Verdict { answer, line: line as u32 }
    }
}

#[derive(Clone, Copy, Debug, PartialEq, Eq)]
pub enum State {
    Done,
    Running,
    None,
}

impl std::fmt::Display for State {
    fn fmt(&self, f: &mut std::fmt::Formatter<'_>) -> std::fmt::Result {
        f.write_str(match self {
            State::Done => "done",
            State::Running => "running",
            State::None => "none",
        })
    }
}

/// What the running program reports.
#[derive(Clone, Copy, Debug, PartialEq, Eq)]
pub struct Outcome {
    pub verdict: Verdict,
    pub state: State,
    pub steps: u32,
    pub value: Option<Datum>,
}

impl Outcome {
    fn refused(verdict: Verdict) -> Self {
        Outcome { verdict, state: State::None, steps: 0, value: None }
    }

    fn of(machine: &Machine) -> Self {
        let value = machine.value();
        let state = if value.is_some() { State::Done } else { State::Running };
        Outcome { verdict: Verdict::ACCEPTED, state, steps: machine.steps(), value }
    }
}

/// Reads and types a glue text.
pub fn compile(text: &[u8]) -> Result<Program, Verdict> {
    let program = reader::read(text)?;
    typing::check(&program)?;
    Ok(program)
}

/// Answer and line for a glue text.
pub fn check(text: &[u8]) -> (u32, u32) {
    match compile(text) {
        Ok(_) => (0, 0),
        Err(verdict) => (verdict.answer, verdict.line),
    }
}

/// Splits a joined text where its first line starting `run=` begins.
pub fn split(joined: &[u8]) -> (&[u8], &[u8]) {
    let mut start = 0;
    while !joined[start..].starts_with(b"run=") {
        match lex::find(&joined[start..], b'\n') {
            Some(at) => start += at + 1,
            None => return (joined, &[]),
        }
    }
    joined.split_at(start)
}

/// The program and the store of a joined text.
pub fn load(joined: &[u8]) -> Result<(Program, Store), Verdict> {
    let (glue, store) = split(joined);
    let program = compile(glue)?;
    let store = store::read(&program, store)?;
    Ok((program, store))
}

/// Checks and runs a joined text.
pub fn run(joined: &[u8]) -> Outcome {
    match load(joined) {
        Err(verdict) => Outcome::refused(verdict),
        Ok((program, store)) => {
            let budget = store.budget;
            let mut machine = Machine::new(&program, store);
            machine.run(budget);
            Outcome::of(&machine)
        }
    }
}

/// As `run`, with demand 3 held against the states of the first `examined`
/// steps and against the last state; the breach if there is one.
pub fn run_audited(joined: &[u8], examined: u32) -> Result<Outcome, String> {
    match load(joined) {
        Err(verdict) => Ok(Outcome::refused(verdict)),
        Ok((program, store)) => {
            let budget = store.budget;
            let mut machine = Machine::new(&program, store);
            audit::run(&program, &mut machine, budget, examined)?;
            Ok(Outcome::of(&machine))
        }
    }
}
