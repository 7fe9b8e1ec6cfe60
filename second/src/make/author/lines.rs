//! Body lines. A form that finds nothing to name is left out.

use super::{header, Author};
use crate::program::{Boxed, Expr, Kind, Op, Stmt, Test};
use crate::typing::{self, Address};

/// No more lines are begun past these many labels, to stay far from the limit.
const MOST_LABELS: u32 = 40;

impl Author<'_> {
    pub(super) fn some_line(&mut self) -> Option<()> {
        if self.labels > MOST_LABELS {
            return None;
        }
        if !self.live {
            self.resume();
            return None;
        }
        match self.rng.below(24) {
            0..=5 => self.set(None)?,
            6..=9 => self.put()?,
            10 => {
                let e = self.of_kind(Kind::Int, 5)?;
                let label = self.target(&self.env.clone(), 50);
                self.keep(Stmt::If(label, e));
            }
            11..=16 => self.test()?,
            17 => {
                let label = self.target(&self.env.clone(), 8);
                self.keep(Stmt::Goto(label));
            }
            18 => {
                let env = self.weakened(&self.env.clone(), None);
                self.place_new(&env);
            }
            19 => self.counted()?,
            20..=22 => self.dispatch()?,
            _ if self.rng.chance(30) => self.leave(),
            _ => {}
        }
        Some(())
    }

    /// Sets any variable but one.
    fn set(&mut self, but: Option<u32>) -> Option<()> {
        let var = self.some_var(|_, _, _| true).filter(|&var| Some(var) != but)?;
        let e = self.near_kind(self.program.kind(var))?;
        self.keep(Stmt::Set(var, e));
        Some(())
    }

    fn put(&mut self) -> Option<()> {
        let e = self.address(4)?;
        let Address { row, offset, tag, .. } = self.address_of(e)?;
        let product = self.program.rows.product(row, tag)?;
        let to = self.rng.below(product.len());
        let field = product[to];
        let stored = self.near_kind(Kind::Value(field))?;
        self.keep(Stmt::Put(e, (to as i32).wrapping_sub(offset as i32), stored));
        Some(())
    }

    /// A test of some variable that what is known of it allows.
    fn test(&mut self) -> Option<()> {
        let var = self.some_var(|_, kind, entry| kind != Kind::Int && entry.offset == Some(0))?;
        let Kind::Value(row) = self.program.kind(var) else { return None };
        let any = self.rng.pick(&[Boxed::Any, Boxed::Box, Boxed::Imm]);
        let stray = self.strays();
        let mut env = self.env.clone();
        let known = &mut env[var as usize];
        let test = match if stray { any } else { known.boxed } {
            Boxed::Any => Test::Imm,
            Boxed::Box => Test::Tag(self.rng.below(self.program.rows.products(row).len()) as i32),
            Boxed::Imm => Test::Int(header::immediate(self.rng, &self.program.rows, row)?),
        };
        match test {
            Test::Imm => known.boxed = Boxed::Imm,
            Test::Tag(n) | Test::Int(n) => known.tag = Some(n),
        }
        let label = self.target(&env, 50);
        self.keep(Stmt::Test(label, var, test));
        Some(())
    }

    /// Tests of boxedness and every tag, so that fields can be read behind the
    /// labels.
    fn dispatch(&mut self) -> Option<()> {
        let var = self.some_var(|_, kind, entry| {
            kind != Kind::Int && entry.boxed != Boxed::Imm && entry.offset == Some(0)
        })?;
        let Kind::Value(row) = self.program.kind(var) else { return None };
        let mut env = self.env.clone();
        env[var as usize].boxed = Boxed::Imm;
        let label = self.target(&env, 50);
        self.keep(Stmt::Test(label, var, Test::Imm));
        let tags = self.program.rows.products(row).len() as i32;
        for tag in 0..tags {
            let mut env = self.env.clone();
            env[var as usize].tag = Some(tag);
            let label = self.awaited(&env, Some(var));
            self.keep(Stmt::Test(label, var, Test::Tag(tag)));
        }
        Some(())
    }

    /// A loop over a counter that some int variable holds.
    fn counted(&mut self) -> Option<()> {
        let counter = self.some_var(|_, kind, _| kind == Kind::Int)?;
        let times = 1 + self.rng.below(12) as i32;
        self.keep(Stmt::Set(counter, Expr::Num(times)));
        let mut env = self.env.clone();
        for entry in &mut env {
            entry.tag = None;
            entry.boxed = if self.rng.chance(60) { Boxed::Any } else { entry.boxed };
        }
        let label = self.place_new(&env);
        for _ in 0..self.rng.below(4) {
            self.set(Some(counter));
        }
        let less = self.arith(Op::Sub, Expr::Var(counter), Expr::Num(1));
        self.keep(Stmt::Set(counter, less));
        self.keep(Stmt::If(label, Expr::Var(counter)));
        Some(())
    }

    /// Ends what is reached: `return`, or else a jump back, to a new label only
    /// if none will do.
    fn leave(&mut self) {
        for _ in 0..4 {
            let e = self.near_kind(self.program.ret);
            if e.is_some_and(|e| self.keep(Stmt::Return(e))) {
                return;
            }
        }
        let env = self.env.clone();
        let covers = |&&label: &&u32| typing::covered(&env, self.program.label(label)).is_ok();
        let latest = self.placed.iter().rev().find(covers).copied();
        let label = latest.unwrap_or_else(|| self.place_new(&env));
        self.keep(Stmt::Goto(label));
    }

    /// Places what waits, with some lines after each, until nothing does.
    pub(super) fn finish(&mut self) {
        loop {
            if self.live {
                self.leave();
            }
            let Some(&label) = self.pending.first() else { return };
            self.place(label);
            for _ in 0..self.rng.below(5) {
                if self.live {
                    self.some_line();
                }
            }
        }
    }
}
