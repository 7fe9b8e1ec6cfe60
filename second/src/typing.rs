//! The typing rules (answers 6 to 13).

use crate::program::{Boxed, Decl, Entry, Expr, Kind, Op, Program, Rows, Stmt, Test};
use crate::Verdict;

/// Kind and entry of an expression, or the answer that refuses it.
pub(crate) type Judged = Result<(Kind, Entry), u32>;

/// Types a program whose names exist.
pub fn check(program: &Program) -> Result<(), Verdict> {
    walk(program, |_| ())
}

/// The environment of each body line of an accepted program.
pub fn environments(program: &Program) -> Vec<Vec<Entry>> {
    let mut envs = Vec::with_capacity(program.body.len());
    let walked = walk(program, |env| envs.push(env.to_vec()));
    debug_assert!(walked.is_ok());
    envs
}

/// Judges line by line; `visit` is lent the environment of each body line: the
/// one before it, or a label's own.
fn walk(program: &Program, mut visit: impl FnMut(&[Entry])) -> Result<(), Verdict> {
    let mut env = Vec::with_capacity(program.vars.len());
    for (at, decl) in program.vars.iter().enumerate() {
        let refused = |answer| Verdict::new(answer, program.var_line(at));
        env.push(start(&program.rows, decl).map_err(refused)?);
    }
    let mut reached = true;
    for (at, stmt) in program.body.iter().enumerate() {
        visit(match *stmt {
            Stmt::Label(label) => program.label(label),
            _ => &env,
        });
        let refused = |answer| Verdict::new(answer, program.body_line(at));
        reached = line(program, &mut env, reached, stmt).map_err(refused)?;
    }
    match program.body.last() {
        Some(Stmt::Goto(_) | Stmt::Return(_)) => Ok(()),
        _ => Err(Verdict::new(13, program.body_line(program.body.len()) - 1)),
    }
}

#[inline]
fn ensure(holds: bool, answer: u32) -> Result<(), u32> {
    if holds {
        Ok(())
    } else {
        Err(answer)
    }
}

/// The row of a value.
#[inline]
fn value(kind: Kind) -> Result<u32, u32> {
    match kind {
        Kind::Value(row) => Ok(row),
        Kind::Int => Err(6),
    }
}

pub(crate) fn covered(env: &[Entry], label: &[Entry]) -> Result<(), u32> {
    ensure(env.iter().zip(label).all(|(entry, label)| entry.covered_by(label)), 11)
}

/// The entry a variable starts with.
pub(crate) fn start(rows: &Rows, decl: &Decl) -> Result<Entry, u32> {
    match (decl.kind, decl.start) {
        (_, None) => Ok(Entry::LOOSE),
        (Kind::Int, number) => Ok(Entry::int(number)),
        (Kind::Value(row), Some(n)) => {
            ensure(rows.suits(row, n), 9)?;
            Ok(Entry::immediate(Some(n)))
        }
    }
}

/// Judges one body line, changes the environment to the one after it, and
/// tells whether the next line is reached from it.
pub(crate) fn line(
    program: &Program,
    env: &mut [Entry],
    reached: bool,
    stmt: &Stmt,
) -> Result<bool, u32> {
    if let Stmt::Label(label) = *stmt {
        let own = program.label(label);
        if reached {
            covered(env, own)?;
        }
        env.copy_from_slice(own);
        return Ok(true);
    }
    ensure(reached, 12)?;
    match stmt {
        Stmt::Set(var, e) => {
            let (kind, entry) = judge(program, env, e)?;
            ensure(kind == program.kind(*var), 6)?;
            env[*var as usize] = entry;
        }
        Stmt::Put(address, amount, stored) => put(program, env, address, *amount, stored)?,
        Stmt::Goto(label) => {
            covered(env, program.label(*label))?;
            return Ok(false);
        }
        Stmt::If(label, e) => {
            let (kind, _) = judge(program, env, e)?;
            ensure(kind == Kind::Int, 6)?;
            covered(env, program.label(*label))?;
        }
        Stmt::Test(label, var, test) => judge_test(program, env, *label, *var, *test)?,
        Stmt::Return(e) => {
            let (kind, entry) = judge(program, env, e)?;
            ensure(kind == program.ret, 6)?;
            ensure(entry.offset == Some(0), 10)?;
            return Ok(false);
        }
        Stmt::Label(_) => {}
    }
    Ok(true)
}

fn put(program: &Program, env: &[Entry], a: &Expr, amount: i32, e: &Expr) -> Result<(), u32> {
    let address = judge(program, env, a)?;
    let (kind, entry) = judge(program, env, e)?;
    let (_, field) = Address::of(&program.rows, address)?.moved(amount)?;
    ensure(kind == Kind::Value(field), 6)?;
    ensure(entry.offset == Some(0), 10)
}

/// What the jumping side knows is held against the label, then the environment
/// is left as the falling side has it.
fn judge_test(
    program: &Program,
    env: &mut [Entry],
    label: u32,
    var: u32,
    test: Test,
) -> Result<(), u32> {
    let row = value(program.kind(var))?;
    let before = env[var as usize];
    ensure(before.offset == Some(0), 10)?;
    let (jumping, falling) = match test {
        Test::Imm => (Entry { boxed: Boxed::Imm, ..before }, Entry { boxed: Boxed::Box, ..before }),
        Test::Tag(tag) => {
            ensure(before.boxed == Boxed::Box, 7)?;
            ensure(program.rows.product(row, tag).is_some(), 8)?;
            (Entry { tag: Some(tag), ..before }, before)
        }
        Test::Int(n) => {
            ensure(before.boxed == Boxed::Imm, 7)?;
            ensure(program.rows.suits(row, n), 9)?;
            (Entry { tag: Some(n), ..before }, before)
        }
    };
    env[var as usize] = jumping;
    covered(env, program.label(label))?;
    env[var as usize] = falling;
    Ok(())
}

/// Judges an expression: operands left to right, then the form itself.
pub(crate) fn judge(program: &Program, env: &[Entry], e: &Expr) -> Judged {
    let rows = &program.rows;
    match *e {
        Expr::Num(n) => Ok((Kind::Int, Entry::int(Some(n)))),
        Expr::Var(var) => Ok((program.kind(var), env[var as usize])),
        Expr::Arith(op, operands) => {
            let (a, b) = program.two(operands);
            let a = judge(program, env, a)?;
            arithmetic(op, a, judge(program, env, b)?)
        }
        Expr::Val(row, operand) => {
            let row = u32::from(row);
            let (kind, Entry { tag, .. }) = judge(program, env, program.one(operand))?;
            ensure(kind == Kind::Int, 6)?;
            ensure(tag.map_or(rows.psi(row).is_none(), |n| rows.suits(row, n)), 9)?;
            Ok((Kind::Value(row), Entry::immediate(tag)))
        }
        Expr::Int(operand) => int(rows, judge(program, env, program.one(operand))?),
        Expr::Fetch(operand) => {
            let address = judge(program, env, program.one(operand))?;
            let (_, field) = Address::of(rows, address)?.moved(0)?;
            Ok((Kind::Value(field), Entry::LOOSE))
        }
        Expr::Step(operands) => {
            let (a, amount) = program.two(operands);
            let a = judge(program, env, a)?;
            step(rows, a, judge(program, env, amount)?)
        }
    }
}

#[inline]
fn arithmetic(op: Op, a: (Kind, Entry), b: (Kind, Entry)) -> Judged {
    ensure(a.0 == Kind::Int && b.0 == Kind::Int, 6)?;
    let tag = match (a.1.tag, b.1.tag) {
        (Some(a), Some(b)) => Some(op.apply(a, b)),
        _ => None,
    };
    Ok((Kind::Int, Entry::int(tag)))
}

fn int(rows: &Rows, (kind, entry): (Kind, Entry)) -> Judged {
    let row = value(kind)?;
    let immediate = match entry.boxed {
        Boxed::Imm => true,
        Boxed::Any => rows.products(row).len() == 0,
        Boxed::Box => false,
    };
    ensure(immediate, 7)?;
    ensure(entry.offset == Some(0), 10)?;
    Ok((Kind::Int, Entry::int(entry.tag)))
}

fn step(rows: &Rows, a: (Kind, Entry), amount: (Kind, Entry)) -> Judged {
    // The kinds of both operands come before what is known of the first.
    value(a.0)?;
    ensure(amount.0 == Kind::Int, 6)?;
    let address = Address::of(rows, a)?;
    let (offset, _) = address.moved(amount.1.tag.ok_or(7u32)?)?;
    Ok((a.0, Entry { boxed: Boxed::Box, offset: Some(offset), tag: Some(address.tag) }))
}

/// A place in a block, known in full.
pub(crate) struct Address<'a> {
    rows: &'a Rows,
    pub(crate) row: u32,
    pub(crate) offset: u32,
    pub(crate) tag: i32,
}

impl<'a> Address<'a> {
    /// The address that a value holds (6, then 7).
    pub(crate) fn of(rows: &'a Rows, (kind, entry): (Kind, Entry)) -> Result<Self, u32> {
        let row = value(kind)?;
        match entry {
            Entry { boxed: Boxed::Box, offset: Some(offset), tag: Some(tag) } => {
                Ok(Address { rows, row, offset, tag })
            }
            Entry::LOOSE if rows.psi(row) == Some(0) && rows.products(row).len() == 1 => {
                Ok(Address { rows, row, offset: 0, tag: 0 })
            }
            _ => Err(7),
        }
    }

    /// The offset moved over whole numbers, and the row of the field there (8).
    pub(crate) fn moved(&self, amount: i32) -> Result<(u32, u32), u32> {
        let product = self.rows.product(self.row, self.tag).ok_or(8u32)?;
        let sum = i64::from(self.offset) + i64::from(amount);
        let field = usize::try_from(sum).ok().and_then(|at| product.get(at));
        field.map(|&field| (sum as u32, field)).ok_or(8)
    }
}
