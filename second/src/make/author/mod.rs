//! Accepted programs, written line by line: what is tried is kept only if the
//! rules accept it where it stands. Now and then the author strays and tries
//! what they ought to refuse; a rule that is too weak then shows when the
//! program runs.

mod exprs;
mod labels;
mod lines;

use super::header;
use super::rng::Rng;
use crate::program::{Entry, Program, Stmt};
use crate::typing;

struct Author<'r> {
    rng: &'r mut Rng,
    /// Its labels have any numbers until the end. Operands that no line uses
    /// stay where they are: they are never written.
    program: Program,
    env: Vec<Entry>,
    /// Is the next line reached?
    live: bool,
    labels: u32,
    placed: Vec<u32>,
    /// Labels that are jumped to and do not stand yet.
    pending: Vec<u32>,
}

/// An accepted program of about so many lines.
pub(super) fn program(rng: &mut Rng, lines: usize) -> Program {
    let rows = header::rows(rng);
    let vars = header::vars(rng, &rows);
    let ret = header::kind(rng, &rows, 40);
    let start = |decl| typing::start(&rows, decl).unwrap_or(Entry::LOOSE);
    let env = vars.iter().map(start).collect();
    let program = Program { ret, rows, vars, ..Program::default() };
    let (placed, pending) = (Vec::new(), Vec::new());
    let mut author = Author { rng, program, env, live: true, labels: 0, placed, pending };
    for _ in 0..lines {
        author.some_line();
    }
    author.finish();
    numbered(author.program, author.labels)
}

/// Numbers the labels by appearance, as a text does.
fn numbered(mut program: Program, labels: u32) -> Program {
    let mut number = vec![0; labels as usize];
    let mut entries = Vec::with_capacity(program.entries.len());
    for (at, stmt) in program.body.iter().enumerate() {
        if let Stmt::Label(label) = *stmt {
            number[label as usize] = program.targets.len() as u32;
            program.targets.push(at as u32);
            entries.extend_from_slice(program.label(label));
        }
    }
    for stmt in &mut program.body {
        match stmt {
            Stmt::Goto(label) | Stmt::If(label, _) | Stmt::Test(label, ..) | Stmt::Label(label) => {
                *label = number[*label as usize];
            }
            Stmt::Set(..) | Stmt::Put(..) | Stmt::Return(_) => {}
        }
    }
    Program { entries, ..program }
}

impl Author<'_> {
    /// Does the author try what ought to be refused?
    fn strays(&mut self) -> bool {
        self.rng.chance(8)
    }

    /// Keeps a line if the rules accept it here.
    fn keep(&mut self, stmt: Stmt) -> bool {
        let mut env = self.env.clone();
        let falls = typing::line(&self.program, &mut env, self.live, &stmt);
        if let Ok(falls) = falls {
            self.env = env;
            self.live = falls;
            self.program.body.push(stmt);
        }
        falls.is_ok()
    }
}
