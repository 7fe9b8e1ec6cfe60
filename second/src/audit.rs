//! Demand 3, held against a machine while it runs: from a fitting store, after
//! any number of steps, it has returned a value that fits `ret` or can step;
//! the variables fit the line's environment; every block has the tag, length
//! and row it started with. Beyond that every cell fits its field, which keeps
//! the store a fitting one.

use crate::machine::{Block, Datum, Machine, Step};
use crate::program::{Boxed, Entry, Kind, Program, Stmt};
use crate::typing;

/// What a machine's states are held against.
pub struct Audit<'p> {
    program: &'p Program,
    envs: Vec<Vec<Entry>>,
    shapes: Vec<(u32, i32, usize)>,
}

fn shape(block: &Block) -> (u32, i32, usize) {
    (block.row, block.tag, block.cells.len())
}

fn ensure(holds: bool, breach: impl FnOnce() -> String) -> Result<(), String> {
    if holds {
        Ok(())
    } else {
        Err(breach())
    }
}

impl<'p> Audit<'p> {
    /// For a machine of an accepted program that has not stepped yet.
    pub fn new(program: &'p Program, machine: &Machine) -> Self {
        let shapes = machine.blocks().iter().map(shape).collect();
        Audit { program, envs: typing::environments(program), shapes }
    }

    /// One state: variables, blocks and, if it has returned, the value.
    pub fn state(&self, machine: &Machine) -> Result<(), String> {
        let (vars, blocks, at) = (machine.vars(), machine.blocks(), machine.at());
        let env = self.envs.get(at).ok_or_else(|| format!("it stands at no line: {at}"))?;
        ensure(env.len() == vars.len(), || format!("{} variables", vars.len()))?;
        for (var, (entry, &datum)) in env.iter().zip(vars).enumerate() {
            ensure(self.fits(self.program.vars[var].kind, entry, datum, blocks), || {
                format!("v{var} is {datum:?}, unlike {entry} at body line {at}")
            })?;
        }
        ensure(blocks.iter().map(shape).eq(self.shapes.iter().copied()), || {
            format!("a block has lost its shape before body line {at}")
        })?;
        for block in blocks {
            ensure(self.cells_fit(block, blocks), || format!("{block:?} at body line {at}"))?;
        }
        machine.value().map_or(Ok(()), |value| {
            ensure(matches!(self.program.body[at], Stmt::Return(_)), || {
                format!("it has returned at body line {at}")
            })?;
            ensure(self.fits(self.program.ret, &Entry::LOOSE, value, blocks), || {
                format!("{value:?} is returned")
            })
        })
    }

    /// A datum fits an entry of a kind.
    fn fits(&self, kind: Kind, entry: &Entry, datum: Datum, blocks: &[Block]) -> bool {
        let offset_is = |at: u32| entry.offset.is_none_or(|offset| offset == at);
        let tag_is = |n: i32| entry.tag.is_none_or(|tag| tag == n);
        match (kind, datum) {
            (Kind::Int, Datum::Int(n)) => tag_is(n),
            (Kind::Value(row), Datum::Imm(n)) => {
                let known = entry.boxed != Boxed::Box && offset_is(0) && tag_is(n);
                known && self.program.rows.suits(row, n)
            }
            (Kind::Value(row), Datum::Place(block, at)) => {
                let known = entry.boxed != Boxed::Imm && offset_is(at);
                known
                    && blocks.get(block as usize).is_some_and(|block| {
                        block.row == row && tag_is(block.tag) && (at as usize) < block.cells.len()
                    })
            }
            _ => false,
        }
    }

    fn cells_fit(&self, block: &Block, blocks: &[Block]) -> bool {
        let product = self.program.rows.product(block.row, block.tag);
        product.is_some_and(|product| {
            product.len() == block.cells.len()
                && product.iter().zip(&block.cells).all(|(&field, &cell)| {
                    self.fits(Kind::Value(field), &Entry::LOOSE, cell, blocks)
                })
        })
    }
}

/// Runs to the budget. The states before and after each of the first
/// `examined` steps are held against demand 3, and so is the last one, with a
/// step tried beyond it.
pub fn run(
    program: &Program,
    machine: &mut Machine,
    budget: u32,
    examined: u32,
) -> Result<(), String> {
    let audit = Audit::new(program, machine);
    audit.state(machine)?;
    while machine.steps() < budget.min(examined) && machine.value().is_none() {
        let step = machine.step();
        ensure(step != Step::Stuck, || format!("stuck at body line {}", machine.at()))?;
        audit.state(machine)?;
    }
    machine.run(budget);
    audit.state(machine)?;
    let step = machine.clone().step();
    ensure(step != Step::Stuck, || format!("stuck at body line {}", machine.at()))
}
