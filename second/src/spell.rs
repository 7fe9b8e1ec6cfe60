//! Programs, stores and data written as the texts that read to them. Every
//! text that is read has just this one spelling.

use std::fmt::{Display, Formatter, Result};

use crate::machine::Datum;
use crate::program::{Boxed, Decl, Entry, Expr, Kind, Op, Program, Rows, Stmt, Test};
use crate::store::Store;

/// As an `arg=` line writes it. A place has a spelling only at offset 0, and
/// accepted programs return no other.
impl Display for Datum {
    fn fmt(&self, f: &mut Formatter<'_>) -> Result {
        match self {
            Datum::Int(n) => write!(f, "c{n}"),
            Datum::Imm(n) => write!(f, "i{n}"),
            Datum::Place(block, _) => write!(f, "b{block}"),
        }
    }
}

impl Display for Store {
    fn fmt(&self, f: &mut Formatter<'_>) -> Result {
        writeln!(f, "run={}", self.budget)?;
        for block in &self.blocks {
            write!(f, "block={} {}", block.row, block.tag)?;
            for cell in &block.cells {
                write!(f, " {cell}")?;
            }
            writeln!(f)?;
        }
        self.args.iter().try_for_each(|arg| writeln!(f, "arg={arg}"))
    }
}

impl Display for Kind {
    fn fmt(&self, f: &mut Formatter<'_>) -> Result {
        match self {
            Kind::Int => f.write_str("int"),
            Kind::Value(row) => write!(f, "value {row}"),
        }
    }
}

impl Display for Decl {
    fn fmt(&self, f: &mut Formatter<'_>) -> Result {
        match self.start {
            None => write!(f, "param={}", self.kind),
            Some(n) => write!(f, "local={} {n}", self.kind),
        }
    }
}

impl Display for Entry {
    fn fmt(&self, f: &mut Formatter<'_>) -> Result {
        f.write_str(match self.boxed {
            Boxed::Any => "any",
            Boxed::Box => "box",
            Boxed::Imm => "imm",
        })?;
        match self.offset {
            None => f.write_str(",any")?,
            Some(n) => write!(f, ",{n}")?,
        }
        match self.tag {
            None => f.write_str(",any"),
            Some(n) => write!(f, ",{n}"),
        }
    }
}

impl Display for Rows {
    fn fmt(&self, f: &mut Formatter<'_>) -> Result {
        for row in 0..self.len() as u32 {
            match self.psi(row) {
                None => f.write_str("type=inf:")?,
                Some(psi) => write!(f, "type={psi}:")?,
            }
            for (tag, product) in self.products(row).enumerate() {
                f.write_str(if tag > 0 { "|" } else { "" })?;
                for (at, field) in product.iter().enumerate() {
                    write!(f, "{}{field}", if at > 0 { "," } else { "" })?;
                }
            }
            writeln!(f)?;
        }
        Ok(())
    }
}

impl Display for Op {
    fn fmt(&self, f: &mut Formatter<'_>) -> Result {
        f.write_str(match self {
            Op::Add => "add",
            Op::Sub => "sub",
            Op::Mul => "mul",
            Op::Eq => "eq",
            Op::Lt => "lt",
        })
    }
}

/// An expression together with the program that holds its operands.
struct Tree<'p>(&'p Program, &'p Expr);

impl Display for Tree<'_> {
    fn fmt(&self, f: &mut Formatter<'_>) -> Result {
        let one = |operand| Tree(self.0, self.0.one(operand));
        let two = |operands| {
            let (a, b) = self.0.two(operands);
            (Tree(self.0, a), Tree(self.0, b))
        };
        match *self.1 {
            Expr::Num(n) => write!(f, "{n}"),
            Expr::Var(var) => write!(f, "v{var}"),
            Expr::Fetch(operand) => write!(f, "fetch {}", one(operand)),
            Expr::Int(operand) => write!(f, "int {}", one(operand)),
            Expr::Val(row, operand) => write!(f, "val {row} {}", one(operand)),
            Expr::Step(operands) => {
                let (a, b) = two(operands);
                write!(f, "step {a} {b}")
            }
            Expr::Arith(op, operands) => {
                let (a, b) = two(operands);
                write!(f, "{op} {a} {b}")
            }
        }
    }
}

impl Program {
    fn spell_line(&self, f: &mut Formatter<'_>, stmt: &Stmt) -> Result {
        let of = |e| Tree(self, e);
        match stmt {
            Stmt::Set(var, e) => writeln!(f, "set=v{var} {}", of(e)),
            Stmt::Put(a, amount, e) => writeln!(f, "put={} {amount} {}", of(a), of(e)),
            Stmt::Goto(label) => writeln!(f, "goto={label}"),
            Stmt::If(label, e) => writeln!(f, "if={label} {}", of(e)),
            Stmt::Test(label, var, Test::Imm) => writeln!(f, "ifimm={label} v{var}"),
            Stmt::Test(label, var, Test::Tag(tag)) => writeln!(f, "iftag={label} v{var} {tag}"),
            Stmt::Test(label, var, Test::Int(n)) => writeln!(f, "ifint={label} v{var} {n}"),
            Stmt::Return(e) => writeln!(f, "return={}", of(e)),
            Stmt::Label(label) => {
                f.write_str("label=")?;
                for (at, entry) in self.label(*label).iter().enumerate() {
                    write!(f, "{}{entry}", if at > 0 { " " } else { "" })?;
                }
                writeln!(f)
            }
        }
    }
}

impl Display for Program {
    fn fmt(&self, f: &mut Formatter<'_>) -> Result {
        write!(f, "ret={}\n{}", self.ret, self.rows)?;
        for decl in &self.vars {
            writeln!(f, "{decl}")?;
        }
        self.body.iter().try_for_each(|stmt| self.spell_line(f, stmt))
    }
}
