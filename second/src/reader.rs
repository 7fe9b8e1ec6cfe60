//! Reads a glue text into a program (answers 1 to 5).

use crate::lex::{find, int, nat, Lines, Words};
use crate::program::{Boxed, Decl, Entry, Expr, Kind, Op, Operands, Program, Stmt, Test};
use crate::{Verdict, GLUE_BYTES};

pub const ROWS: usize = 64;
pub const PRODUCTS: usize = 16;
pub const PRODUCT_FIELDS: usize = 16;
pub const FIELDS: usize = 1_024;
pub const VARS: usize = 32;
pub const LABELS: usize = 64;
pub const BODY: usize = 512;
pub const NODES: usize = 4_096;
pub const DEPTH: u32 = 16;

/// What the keys of the lines read so far allow to follow.
#[derive(Clone, Copy)]
enum Part {
    Ret,
    Types,
    Vars,
    Body,
}

struct Reader {
    program: Program,
    part: Part,
    nodes: usize,
    /// The number of the line being read.
    line: usize,
    /// Has the line passed a limit? Told only once its shape is known to be
    /// right.
    over: bool,
    /// The earliest absent name or wrong entry that shows while reading.
    fault: Option<Verdict>,
}

/// Reads a text: answers 1 to 5, or the program.
pub fn read(text: &[u8]) -> Result<Program, Verdict> {
    if text.len() > GLUE_BYTES {
        return Err(Verdict::new(1, 0));
    }
    let mut reader = Reader::new(text.len());
    for line in Lines::new(text) {
        reader.line += 1;
        if line.and_then(|line| reader.read_line(line)).is_none() {
            return Err(Verdict::new(2, reader.line));
        }
        if reader.over {
            return Err(Verdict::new(3, reader.line));
        }
    }
    if reader.line == 0 {
        return Err(Verdict::new(2, 1));
    }
    match reader.earliest_fault() {
        Some(verdict) => Err(verdict),
        None => Ok(reader.program),
    }
}

impl Reader {
    /// The capacities are guesses at what a text of this length holds.
    fn new(bytes: usize) -> Self {
        let program = Program {
            operands: Vec::with_capacity((bytes / 8).min(NODES)),
            body: Vec::with_capacity((bytes / 24).min(BODY)),
            ..Program::default()
        };
        Reader { program, part: Part::Ret, nodes: 0, line: 0, over: false, fault: None }
    }

    fn note(&mut self, answer: u32, at_fault: bool) {
        if at_fault && self.fault.is_none() {
            self.fault = Some(Verdict::new(answer, self.line));
        }
    }

    /// Adds the names that may stand before what they name: those of `ret`
    /// and of rows, which come before every other line, and those of jumps.
    fn earliest_fault(&self) -> Option<Verdict> {
        let program = &self.program;
        let rows = &program.rows;
        if matches!(program.ret, Kind::Value(row) if !rows.exists(row)) {
            return Some(Verdict::new(4, 1));
        }
        let absent_field = |&row: &u32| {
            rows.products(row).any(|product| product.iter().any(|&field| !rows.exists(field)))
        };
        if let Some(row) = (0..rows.len() as u32).find(absent_field) {
            return Some(Verdict::new(4, row as usize + 2));
        }
        let jumps_nowhere =
            |stmt: &Stmt| stmt.target().is_some_and(|l| l as usize >= program.targets.len());
        let jump = program.body.iter().position(jumps_nowhere);
        let jump = jump.map(|at| Verdict::new(4, program.body_line(at)));
        // No line can have both: a line with a jump has no entries, and its
        // absent variable is the same answer.
        self.fault.into_iter().chain(jump).min_by_key(|verdict| verdict.line)
    }

    /// One line; nothing if its shape is wrong.
    fn read_line(&mut self, line: &[u8]) -> Option<()> {
        let equals = find(line, b'=')?;
        let (key, rest) = (&line[..equals], &line[equals + 1..]);
        match (key, self.part) {
            (b"ret", Part::Ret) => {
                self.part = Part::Types;
                let mut words = Words::new(rest);
                self.program.ret = kind(&mut words)?;
                words.end()
            }
            (_, Part::Ret) => None,
            (b"type", Part::Types) => self.row(rest),
            (b"param" | b"local", Part::Types | Part::Vars) => {
                self.part = Part::Vars;
                self.declaration(rest, key == b"local")
            }
            _ => {
                self.part = Part::Body;
                let stmt = self.stmt(key, rest)?;
                self.program.body.push(stmt);
                self.over |= self.program.body.len() > BODY || self.nodes > NODES;
                Some(())
            }
        }
    }

    fn row(&mut self, rest: &[u8]) -> Option<()> {
        let colon = find(rest, b':')?;
        let psi = match &rest[..colon] {
            b"inf" => None,
            word => Some(nat(word)?),
        };
        let rows = &mut self.program.rows;
        rows.push_row(psi);
        let list = &rest[colon + 1..];
        let mut products = 0;
        if !list.is_empty() {
            for product in list.split(|&byte| byte == b'|') {
                let fields = rows.push_product(product.split(|&byte| byte == b',').map(nat))?;
                self.over |= fields > PRODUCT_FIELDS;
                products += 1;
            }
        }
        self.over |= products > PRODUCTS || rows.fields() > FIELDS || rows.len() > ROWS;
        Some(())
    }

    fn declaration(&mut self, rest: &[u8], local: bool) -> Option<()> {
        let mut words = Words::new(rest);
        let kind = kind(&mut words)?;
        let start = if local { Some(int(words.next()?)?) } else { None };
        words.end()?;
        if let Kind::Value(row) = kind {
            self.note(4, !self.program.rows.exists(row));
        }
        self.program.vars.push(Decl { kind, start });
        self.over |= self.program.vars.len() > VARS;
        Some(())
    }

    fn stmt(&mut self, key: &[u8], rest: &[u8]) -> Option<Stmt> {
        let words = &mut Words::new(rest);
        let stmt = match key {
            b"set" => Stmt::Set(self.var(words.next()?)?, self.expr(words, DEPTH)?),
            b"put" => {
                let address = self.expr(words, DEPTH)?;
                let amount = int(words.next()?)?;
                Stmt::Put(address, amount, self.expr(words, DEPTH)?)
            }
            b"goto" => Stmt::Goto(nat(words.next()?)?),
            b"if" => Stmt::If(nat(words.next()?)?, self.expr(words, DEPTH)?),
            b"ifimm" | b"iftag" | b"ifint" => {
                let (label, var) = (nat(words.next()?)?, self.var(words.next()?)?);
                let test = match key {
                    b"ifimm" => Test::Imm,
                    b"iftag" => Test::Tag(int(words.next()?)?),
                    _ => Test::Int(int(words.next()?)?),
                };
                Stmt::Test(label, var, test)
            }
            b"return" => Stmt::Return(self.expr(words, DEPTH)?),
            b"label" => return self.label(rest),
            _ => return None,
        };
        words.end()?;
        Some(stmt)
    }

    fn label(&mut self, rest: &[u8]) -> Option<Stmt> {
        let label = self.program.targets.len() as u32;
        if self.program.vars.is_empty() {
            // No entries: nothing at all, where words would make it one.
            rest.is_empty().then_some(())?;
        } else {
            let mut words = Words::new(rest);
            for var in 0..self.program.vars.len() {
                let entry = entry(words.next()?)?;
                let int = self.program.vars[var].kind == Kind::Int;
                self.note(5, int && entry != Entry::int(entry.tag));
                self.program.entries.push(entry);
            }
            words.end()?;
        }
        self.program.targets.push(self.program.body.len() as u32);
        self.over |= self.program.targets.len() > LABELS;
        Some(Stmt::Label(label))
    }

    fn var(&mut self, word: &[u8]) -> Option<u32> {
        let var = nat(word.strip_prefix(b"v")?)?;
        self.note(4, var as usize >= self.program.vars.len());
        Some(var)
    }

    /// An expression with `room` for this depth. What is too deep is read for
    /// its shape alone, so that no text makes this recursion deeper.
    fn expr(&mut self, words: &mut Words, room: u32) -> Option<Expr> {
        if room == 0 {
            self.over = true;
            skip(words)?;
            return Some(Expr::Num(0));
        }
        self.nodes += 1;
        let op = match words.next()? {
            b"add" => Op::Add,
            b"sub" => Op::Sub,
            b"mul" => Op::Mul,
            b"eq" => Op::Eq,
            b"lt" => Op::Lt,
            b"fetch" => return self.one(words, room).map(Expr::Fetch),
            b"int" => return self.one(words, room).map(Expr::Int),
            b"val" => {
                let row = nat(words.next()?)?;
                self.note(4, !self.program.rows.exists(row));
                // An absent row is refused, whatever is held of it here.
                return self.one(words, room).map(|operand| Expr::Val(row as u16, operand));
            }
            b"step" => return self.two(words, room).map(Expr::Step),
            word @ [b'v', ..] => return self.var(word).map(Expr::Var),
            word => return int(word).map(Expr::Num),
        };
        self.two(words, room).map(|operands| Expr::Arith(op, operands))
    }

    #[inline]
    fn one(&mut self, words: &mut Words, room: u32) -> Option<Operands> {
        let operand = self.expr(words, room - 1)?;
        Some(self.program.hold([operand]))
    }

    #[inline]
    fn two(&mut self, words: &mut Words, room: u32) -> Option<Operands> {
        let operands = [self.expr(words, room - 1)?, self.expr(words, room - 1)?];
        Some(self.program.hold(operands))
    }
}

/// Reads an expression of any depth for its shape alone, without recursion.
fn skip(words: &mut Words) -> Option<()> {
    let mut pending = 1u32;
    while pending > 0 {
        match words.next()? {
            b"add" | b"sub" | b"mul" | b"eq" | b"lt" | b"step" => pending += 1,
            b"fetch" | b"int" => {}
            b"val" => drop(nat(words.next()?)?),
            word => {
                match word {
                    [b'v', digits @ ..] => drop(nat(digits)?),
                    _ => drop(int(word)?),
                }
                pending -= 1;
            }
        }
    }
    Some(())
}

fn kind(words: &mut Words) -> Option<Kind> {
    match words.next()? {
        b"int" => Some(Kind::Int),
        b"value" => Some(Kind::Value(nat(words.next()?)?)),
        _ => None,
    }
}

fn entry(word: &[u8]) -> Option<Entry> {
    let mut parts = word.splitn(3, |&byte| byte == b',');
    let boxed = match parts.next()? {
        b"any" => Boxed::Any,
        b"box" => Boxed::Box,
        b"imm" => Boxed::Imm,
        _ => return None,
    };
    let offset = match parts.next()? {
        b"any" => None,
        part => Some(nat(part)?),
    };
    let tag = match parts.next()? {
        b"any" => None,
        part => Some(int(part)?),
    };
    Some(Entry { boxed, offset, tag })
}
