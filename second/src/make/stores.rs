//! Stores that fit a program, and budgets.

use super::header::immediate;
use super::rng::Rng;
use crate::machine::{Block, Datum, Machine};
use crate::program::{Kind, Program, Rows};
use crate::store::{Store, BUDGET};

/// Makes data, with new blocks as they are needed.
struct Filler<'a> {
    rng: &'a mut Rng,
    rows: &'a Rows,
    blocks: Vec<Block>,
}

impl Filler<'_> {
    /// A datum that fits the row, if any does.
    fn datum(&mut self, row: u32, depth: u32) -> Datum {
        let constants = self.rows.psi(row) != Some(0);
        let full = self.blocks.len() > 30 || depth > 6;
        let blockless = self.rows.products(row).len() == 0;
        if blockless || (constants && (full || self.rng.chance(35))) {
            return Datum::Imm(immediate(self.rng, self.rows, row).unwrap_or(0));
        }
        if full || self.rng.chance(40) {
            let blocks = &self.blocks;
            if let Some(block) = self.rng.pick_where(blocks.len(), |&k| blocks[k].row == row) {
                return Datum::Place(block as u32, 0);
            }
        }
        let tag = self.rng.below(self.rows.products(row).len()) as i32;
        let at = self.blocks.len();
        self.blocks.push(Block { row, tag, cells: Vec::new() });
        let fields = self.rows.product(row, tag).into_iter().flatten();
        let cells = fields.map(|&field| self.datum(field, depth + 1)).collect();
        self.blocks[at].cells = cells;
        Datum::Place(at as u32, 0)
    }
}

/// A store that fits the program, unless a row of it has no data.
pub(super) fn fitting(rng: &mut Rng, program: &Program) -> Store {
    let rows = &program.rows;
    let mut filler = Filler { rng, rows, blocks: Vec::new() };
    let spare = filler.rng.below(rows.len()) as u32;
    if filler.rng.chance(30) && rows.products(spare).len() > 0 {
        filler.datum(spare, 0);
    }
    let mut args = Vec::new();
    for kind in program.params() {
        args.push(match kind {
            Kind::Int => Datum::Int(filler.rng.number()),
            Kind::Value(row) => filler.datum(row, 0),
        });
    }
    Store { budget: 100, blocks: filler.blocks, args }
}

/// Budgets 0, 1, exactly at the return, one off, or large.
pub(super) fn budget(rng: &mut Rng, program: &Program, store: &Store) -> u32 {
    let mut machine = Machine::new(program, store.clone());
    machine.run(2_000);
    let done = machine.value().is_some();
    match rng.below(12) {
        0 => 0,
        1 => 1,
        2..=4 if done => machine.steps(),
        5..=6 if done => machine.steps() - 1,
        7 if done => machine.steps() + 1,
        8 if done || rng.chance(3) => BUDGET,
        _ => 20 + rng.below(3_000) as u32,
    }
}
