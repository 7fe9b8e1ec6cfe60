//! A seeded generator of joined texts: the same seed gives the same texts.

mod author;
mod damage;
mod header;
mod limits;
pub(crate) mod rng;
mod spoil;
mod stores;
mod wild;

pub use limits::{text_of, Limit, LIMITS};

use crate::{Outcome, State};
use rng::Rng;

/// An accepted program and a store for it, written.
pub(crate) fn accepted(rng: &mut Rng, lines: usize) -> (String, String) {
    let program = author::program(rng, lines);
    let mut store = stores::fitting(rng, &program);
    store.budget = stores::budget(rng, &program, &store);
    (program.to_string(), store.to_string())
}

/// The `at`-th joined text of a seed.
pub fn text(seed: u64, at: u64) -> Vec<u8> {
    let rng = &mut Rng::new(seed, at);
    match rng.below(100) {
        0..=24 => {
            let lines = rng.pick(&[3, 10, 25, 60]);
            let (glue, store) = accepted(rng, lines);
            (glue + &store).into_bytes()
        }
        25..=48 => {
            let wanted = rng.pick(&[0, 6, 7, 8, 9, 10, 11]);
            spoil::text(rng, wanted).into_bytes()
        }
        49..=63 => wild::collision(rng).into_bytes(),
        64..=73 => {
            let wanted = rng.pick(&[2, 4, 5, 12, 13]);
            spoil::text(rng, wanted).into_bytes()
        }
        74..=78 => limits::some(rng).into_bytes(),
        79..=84 => {
            let (glue, store) = accepted(rng, 10);
            damage::damaged(rng, &(glue + &store))
        }
        85..=88 => {
            let (glue, store) = accepted(rng, 10);
            [glue.into_bytes(), damage::damaged(rng, &store)].concat()
        }
        _ => {
            let wanted = rng.pick(&[21, 22, 22, 23, 24, 24, 25, 25, 26, 26, 27, 27]);
            spoil::text(rng, wanted).into_bytes()
        }
    }
}

/// How often each answer and state occurs.
#[derive(Debug, Default)]
pub struct Counts {
    pub answers: [u64; 28],
    pub done: u64,
    pub running: u64,
}

impl Counts {
    pub fn add(&mut self, outcome: &Outcome) {
        self.answers[outcome.verdict.answer as usize] += 1;
        match outcome.state {
            State::Done => self.done += 1,
            State::Running => self.running += 1,
            State::None => {}
        }
    }
}

/// A line for each answer there is, and for each way a run ends.
impl std::fmt::Display for Counts {
    fn fmt(&self, f: &mut std::fmt::Formatter<'_>) -> std::fmt::Result {
        for answer in (0..=13).chain(21..=27) {
            writeln!(f, "answer {answer}: {}", self.answers[answer])?;
        }
        writeln!(f, "done: {}\nrunning: {}", self.done, self.running)
    }
}
