//! Reads a store text for a program (answers 21 to 27).

use crate::lex::{int, nat, Lines, Words};
use crate::machine::{Block, Datum};
use crate::program::{Kind, Program};
use crate::{Verdict, STORE_BYTES};

pub const BLOCKS: usize = 256;
pub const CELLS: usize = 2_048;
pub const BUDGET: u32 = 1_000_000;

#[derive(Clone, Debug, Default)]
pub struct Store {
    pub budget: u32,
    pub blocks: Vec<Block>,
    pub args: Vec<Datum>,
}

/// Reads a store text for a program that is accepted.
pub fn read(program: &Program, text: &[u8]) -> Result<Store, Verdict> {
    if text.len() > STORE_BYTES {
        return Err(Verdict::new(21, 0));
    }
    let params: Vec<Kind> = program.params().collect();
    let mut store = Store::default();
    let (mut no, mut cells) = (0, 0);
    for line in Lines::new(text) {
        no += 1;
        let shape = line.and_then(|line| match no {
            1 => store.read_budget(line),
            _ => store.read_line(line, params.len(), &mut cells),
        });
        match shape {
            None => return Err(Verdict::new(22, no)),
            Some(false) => return Err(Verdict::new(23, no)),
            Some(true) => {}
        }
    }
    if no == 0 || store.args.len() < params.len() {
        return Err(Verdict::new(22, no + 1));
    }
    store.check_names(program)?;
    store.check_fit(program, &params)?;
    Ok(store)
}

impl Store {
    /// The first line: nothing if its shape is wrong, false if it passes the
    /// limit.
    fn read_budget(&mut self, line: &[u8]) -> Option<bool> {
        self.budget = nat(line.strip_prefix(b"run=")?)?;
        Some(self.budget <= BUDGET)
    }

    /// Any later line, likewise; `cells` counts the cells of all blocks.
    fn read_line(&mut self, line: &[u8], params: usize, cells: &mut usize) -> Option<bool> {
        if let Some(rest) = line.strip_prefix(b"block=") {
            self.args.is_empty().then_some(())?;
            let block = block(rest)?;
            *cells += block.cells.len();
            self.blocks.push(block);
            return Some(self.blocks.len() <= BLOCKS && *cells <= CELLS);
        }
        let rest = line.strip_prefix(b"arg=")?;
        (self.args.len() < params).then_some(())?;
        self.args.push(match rest {
            [b'c', number @ ..] => Datum::Int(int(number)?),
            _ => cell(rest)?,
        });
        Some(true)
    }

    /// Stage 24.
    fn check_names(&self, program: &Program) -> Result<(), Verdict> {
        let blocks = self.blocks.len();
        let absent = |datum: &Datum| matches!(*datum, Datum::Place(k, _) if k as usize >= blocks);
        let nameless =
            |block: &Block| !program.rows.exists(block.row) || block.cells.iter().any(absent);
        let block = self.blocks.iter().position(nameless);
        let arg = || self.args.iter().position(absent).map(|at| blocks + at);
        match block.or_else(arg) {
            Some(at) => Err(Verdict::new(24, at + 2)),
            None => Ok(()),
        }
    }

    /// Stages 25 to 27.
    fn check_fit(&self, program: &Program, params: &[Kind]) -> Result<(), Verdict> {
        let rows = &program.rows;
        for (at, block) in self.blocks.iter().enumerate() {
            let product = rows
                .product(block.row, block.tag)
                .filter(|product| product.len() == block.cells.len())
                .ok_or(Verdict::new(25, at + 2))?;
            let fits = |(&field, cell): (&u32, &Datum)| {
                cell.fits_loosely(rows, Kind::Value(field), &self.blocks)
            };
            if !product.iter().zip(&block.cells).all(fits) {
                return Err(Verdict::new(26, at + 2));
            }
        }
        let unfit = |(&kind, arg): (&Kind, &Datum)| !arg.fits_loosely(rows, kind, &self.blocks);
        match params.iter().zip(&self.args).position(unfit) {
            Some(at) => Err(Verdict::new(27, self.blocks.len() + at + 2)),
            None => Ok(()),
        }
    }
}

/// `R TAG CELLS`, with at least one cell.
fn block(rest: &[u8]) -> Option<Block> {
    let mut words = Words::new(rest);
    let (row, tag) = (nat(words.next()?)?, int(words.next()?)?);
    let mut cells = vec![cell(words.next()?)?];
    for word in words {
        cells.push(cell(word)?);
    }
    Some(Block { row, tag, cells })
}

/// `iN` or `bK`.
fn cell(word: &[u8]) -> Option<Datum> {
    match word {
        [b'i', number @ ..] => int(number).map(Datum::Imm),
        [b'b', number @ ..] => nat(number).map(|block| Datum::Place(block, 0)),
        _ => None,
    }
}
