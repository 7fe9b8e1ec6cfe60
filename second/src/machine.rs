//! The machine: one body line is one step.

use crate::program::{Expr, Kind, Program, Rows, Stmt, Test};
use crate::store::Store;

#[derive(Clone, Copy, Debug, PartialEq, Eq)]
pub enum Datum {
    /// A C int.
    Int(i32),
    /// An OCaml immediate.
    Imm(i32),
    /// A place: block and offset.
    Place(u32, u32),
}

impl Datum {
    /// Does it fit `any,0,any` of a kind? `blocks` tell a block's row.
    pub(crate) fn fits_loosely(self, rows: &Rows, kind: Kind, blocks: &[Block]) -> bool {
        match (kind, self) {
            (Kind::Int, Datum::Int(_)) => true,
            (Kind::Value(row), Datum::Imm(n)) => rows.suits(row, n),
            (Kind::Value(row), Datum::Place(block, 0)) => {
                blocks.get(block as usize).is_some_and(|block| block.row == row)
            }
            _ => false,
        }
    }
}

#[derive(Clone, Debug, PartialEq, Eq)]
pub struct Block {
    /// Kept beside the block; no step reads it.
    pub row: u32,
    pub tag: i32,
    pub cells: Vec<Datum>,
}

#[derive(Clone, Copy, Debug, PartialEq, Eq)]
pub enum Step {
    Moved,
    Returned,
    Stuck,
}

#[derive(Clone, Debug)]
pub struct Machine<'p> {
    program: &'p Program,
    blocks: Vec<Block>,
    vars: Vec<Datum>,
    at: usize,
    steps: u32,
    value: Option<Datum>,
}

impl<'p> Machine<'p> {
    /// A machine before the first line, over a store read for this program.
    pub fn new(program: &'p Program, store: Store) -> Self {
        let mut args = store.args.into_iter();
        let start = program.vars.iter().map_while(|decl| match (decl.start, decl.kind) {
            (None, _) => args.next(),
            (Some(n), Kind::Int) => Some(Datum::Int(n)),
            (Some(n), Kind::Value(_)) => Some(Datum::Imm(n)),
        });
        let vars = start.collect();
        Machine::raw(program, store.blocks, vars)
    }

    /// A machine over any program that was read and any data; it may be stuck.
    pub fn raw(program: &'p Program, blocks: Vec<Block>, vars: Vec<Datum>) -> Self {
        Machine { program, blocks, vars, at: 0, steps: 0, value: None }
    }

    pub fn steps(&self) -> u32 {
        self.steps
    }

    pub fn value(&self) -> Option<Datum> {
        self.value
    }

    /// The body line it stands at; a returned machine stands at its `return`.
    pub fn at(&self) -> usize {
        self.at
    }

    pub fn vars(&self) -> &[Datum] {
        &self.vars
    }

    pub fn blocks(&self) -> &[Block] {
        &self.blocks
    }

    /// Steps until it has returned, is stuck, or has done `budget` steps.
    pub fn run(&mut self, budget: u32) {
        while self.steps < budget && self.step() == Step::Moved {}
    }

    /// One step, unless it has returned; a step that is stuck changes nothing
    /// and does not count.
    #[inline]
    pub fn step(&mut self) -> Step {
        if self.value.is_some() {
            return Step::Returned;
        }
        match self.advance() {
            None => Step::Stuck,
            Some(step) => {
                self.steps += 1;
                step
            }
        }
    }

    /// The step of the line it stands at; nothing, and no change, if it is
    /// stuck. Whatever can fail comes before the one change of the data.
    #[inline(always)]
    fn advance(&mut self) -> Option<Step> {
        let program = self.program;
        let jump = match program.body.get(self.at)? {
            Stmt::Label(_) => None,
            Stmt::Set(var, e) => {
                let datum = self.eval(e)?;
                *self.vars.get_mut(*var as usize)? = datum;
                None
            }
            Stmt::Put(address, amount, stored) => {
                self.put(address, *amount, stored)?;
                None
            }
            Stmt::Goto(label) => Some(*label),
            Stmt::If(label, e) => (self.int(e)? != 0).then_some(*label),
            Stmt::Test(label, var, test) => match (*test, *self.vars.get(*var as usize)?) {
                (Test::Imm, Datum::Imm(_)) => Some(*label),
                (Test::Imm, Datum::Place(..)) => None,
                (Test::Tag(tag), Datum::Place(block, 0)) => {
                    (self.block(block)?.tag == tag).then_some(*label)
                }
                (Test::Int(n), Datum::Imm(own)) => (own == n).then_some(*label),
                _ => return None,
            },
            Stmt::Return(e) => {
                self.value = Some(self.eval(e)?);
                return Some(Step::Returned);
            }
        };
        self.at = match jump {
            None => self.at + 1,
            Some(label) => *program.targets.get(label as usize)? as usize,
        };
        Some(Step::Moved)
    }

    fn put(&mut self, address: &Expr, amount: i32, stored: &Expr) -> Option<()> {
        let (block, offset) = self.place(address)?;
        let stored = match self.eval(stored)? {
            Datum::Int(_) => return None,
            datum => datum,
        };
        let cells = &mut self.blocks.get_mut(block as usize)?.cells;
        *cells.get_mut(moved(offset, amount)?)? = stored;
        Some(())
    }

    #[inline]
    fn block(&self, block: u32) -> Option<&Block> {
        self.blocks.get(block as usize)
    }

    /// The value of an expression, which the reader keeps from nesting past 16.
    /// Inlined, so that what a line sets or returns does not go through memory.
    #[inline(always)]
    fn eval(&self, e: &Expr) -> Option<Datum> {
        match *e {
            Expr::Num(n) => Some(Datum::Int(n)),
            Expr::Var(var) => self.vars.get(var as usize).copied(),
            Expr::Fetch(operand) => {
                let (block, offset) = self.place(self.program.one(operand))?;
                self.block(block)?.cells.get(offset as usize).copied()
            }
            Expr::Step(_) => self.place(e).map(|(block, offset)| Datum::Place(block, offset)),
            Expr::Val(_, operand) => self.int(self.program.one(operand)).map(Datum::Imm),
            Expr::Int(_) | Expr::Arith(..) => self.computed_int(e).map(Datum::Int),
        }
    }

    /// The value of an expression that has to be a C int; a leaf, which most
    /// are, needs no call.
    #[inline(always)]
    fn int(&self, e: &Expr) -> Option<i32> {
        match *e {
            Expr::Num(n) => Some(n),
            Expr::Var(var) => match *self.vars.get(var as usize)? {
                Datum::Int(n) => Some(n),
                _ => None,
            },
            _ => self.computed_int(e),
        }
    }

    fn computed_int(&self, e: &Expr) -> Option<i32> {
        match *e {
            Expr::Arith(op, operands) => {
                let (a, b) = self.program.two(operands);
                Some(op.apply(self.int(a)?, self.int(b)?))
            }
            Expr::Int(operand) => match self.eval(self.program.one(operand))? {
                Datum::Imm(n) => Some(n),
                _ => None,
            },
            _ => None,
        }
    }

    /// The value of an expression that has to be a place.
    fn place(&self, e: &Expr) -> Option<(u32, u32)> {
        match *e {
            Expr::Step(operands) => {
                let (address, amount) = self.program.two(operands);
                let (block, offset) = self.place(address)?;
                let offset = moved(offset, self.int(amount)?)?;
                let inside = offset < self.block(block)?.cells.len();
                inside.then_some((block, offset as u32))
            }
            Expr::Var(_) | Expr::Fetch(_) => match self.eval(e)? {
                Datum::Place(block, offset) => Some((block, offset)),
                _ => None,
            },
            Expr::Num(_) | Expr::Val(..) | Expr::Int(_) | Expr::Arith(..) => None,
        }
    }
}

/// An offset moved over whole numbers; nothing if it turns negative.
#[inline]
fn moved(offset: u32, amount: i32) -> Option<usize> {
    usize::try_from(i64::from(offset) + i64::from(amount)).ok()
}
