//! Expressions of a kind, and addresses.

use super::{header, Author};
use crate::program::{Entry, Expr, Kind, Op, Program};
use crate::typing::{self, Address};

impl Author<'_> {
    fn judge(&self, e: Expr) -> Option<(Kind, Entry)> {
        typing::judge(&self.program, &self.env, &e).ok()
    }

    pub(super) fn address_of(&self, e: Expr) -> Option<Address<'_>> {
        Address::of(&self.program.rows, self.judge(e)?).ok()
    }

    pub(super) fn some_var(&mut self, test: impl Fn(&Program, Kind, Entry) -> bool) -> Option<u32> {
        let (program, env) = (&self.program, &self.env);
        let passes = |&var: &usize| test(program, program.vars[var].kind, env[var]);
        self.rng.pick_where(env.len(), passes).map(|var| var as u32)
    }

    pub(super) fn arith(&mut self, op: Op, a: Expr, b: Expr) -> Expr {
        Expr::Arith(op, self.program.hold([a, b]))
    }

    /// An expression of this kind, not much deeper than there is room.
    pub(super) fn of_kind(&mut self, kind: Kind, room: u32) -> Option<Expr> {
        (0..6).find_map(|_| {
            let e = self.some_form(kind, room)?;
            (self.judge(e)?.0 == kind).then_some(e)
        })
    }

    /// The same, of another kind if the author strays.
    pub(super) fn near_kind(&mut self, kind: Kind) -> Option<Expr> {
        let other = header::kind(self.rng, &self.program.rows, 20);
        let kind = if self.strays() { other } else { kind };
        let room = 2 + self.rng.below(8) as u32;
        self.of_kind(kind, room)
    }

    fn some_form(&mut self, kind: Kind, room: u32) -> Option<Expr> {
        let form = self.rng.below(if room > 1 { 10 } else { 5 });
        match kind {
            _ if form < 3 => self.some_var(|_, own, _| own == kind).map(Expr::Var),
            Kind::Int if form < 5 => Some(Expr::Num(self.rng.number())),
            Kind::Int if form < 8 => {
                let op = self.rng.pick(&Op::ALL);
                let (a, b) = (self.of_kind(kind, room - 1)?, self.of_kind(kind, room - 1)?);
                Some(self.arith(op, a, b))
            }
            Kind::Int => {
                let row = self.rng.below(self.program.rows.len()) as u32;
                let e = self.of_kind(Kind::Value(row), room - 1)?;
                Some(Expr::Int(self.program.hold([e])))
            }
            Kind::Value(row) if form < 5 => {
                let n = match self.strays() {
                    true => self.rng.number(),
                    false => header::immediate(self.rng, &self.program.rows, row)?,
                };
                let any = self.program.rows.psi(row).is_none() || self.strays();
                let deeper = any && room > 1;
                let e = if deeper { self.of_kind(Kind::Int, room - 1)? } else { Expr::Num(n) };
                Some(Expr::Val(row as u16, self.program.hold([e])))
            }
            Kind::Value(_) => {
                let e = self.address(room - 1)?;
                let e = self.stepped(e)?;
                Some(if form < 6 { e } else { Expr::Fetch(self.program.hold([e])) })
            }
        }
    }

    /// An expression that addresses a block: a variable, or a field that is
    /// reached from one.
    pub(super) fn address(&mut self, room: u32) -> Option<Expr> {
        let addresses =
            |program: &Program, kind, entry| Address::of(&program.rows, (kind, entry)).is_ok();
        let mut e = Expr::Var(self.some_var(addresses)?);
        for _ in 0..room / 2 {
            let field = self.stepped(e)?;
            let field = Expr::Fetch(self.program.hold([field]));
            if self.rng.chance(60) || self.address_of(field).is_none() {
                break;
            }
            e = field;
        }
        Some(e)
    }

    /// An address moved to some field, or left as it is.
    fn stepped(&mut self, e: Expr) -> Option<Expr> {
        let Address { row, offset, tag, .. } = self.address_of(e)?;
        let fields = self.program.rows.product(row, tag)?.len();
        let to = if self.strays() { fields as i32 } else { self.rng.below(fields) as i32 };
        if to == offset as i32 && self.rng.chance(70) {
            return Some(e);
        }
        let mut amount = Expr::Num(to.wrapping_sub(offset as i32));
        if self.rng.chance(20) {
            let part = self.rng.number();
            let rest = to.wrapping_sub(offset as i32).wrapping_sub(part);
            amount = self.arith(Op::Add, Expr::Num(part), Expr::Num(rest));
        }
        let moved = Expr::Step(self.program.hold([e, amount]));
        self.judge(moved).map(|_| moved)
    }
}
