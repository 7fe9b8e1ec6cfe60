//! A glue program as data: rows, variables, body lines and expressions.
//!
//! Expressions are trees as they would be with boxes, but for the boxes: what
//! stands in one, the operands of an operator, lies in a `Vec` of the program
//! and is named by its index there. A box for each operator costs a third of
//! the checker's time, in `malloc`, in `free` and in the walk that drops the
//! trees; one `Vec` grows a few times for a whole text and is dropped at once.
//! For the same reason the fields of all rows lie in one `Vec`, and so do the
//! entries of all labels.

use std::ops::Range;

#[derive(Clone, Copy, Debug, Default, PartialEq, Eq)]
pub enum Kind {
    #[default]
    Int,
    /// A value of this row.
    Value(u32),
}

#[derive(Clone, Copy, Debug, PartialEq, Eq)]
pub enum Boxed {
    Any,
    Box,
    Imm,
}

/// What is known of a variable or an expression; nothing stands for `any`.
#[derive(Clone, Copy, Debug, PartialEq, Eq)]
pub struct Entry {
    pub boxed: Boxed,
    pub offset: Option<u32>,
    pub tag: Option<i32>,
}

impl Entry {
    /// The loosest usual entry, `any,0,any`.
    pub const LOOSE: Entry = Entry::int(None);

    /// `any,0,T`: all that is ever known of an int.
    pub const fn int(tag: Option<i32>) -> Entry {
        Entry { boxed: Boxed::Any, offset: Some(0), tag }
    }

    /// `imm,0,T`
    pub const fn immediate(tag: Option<i32>) -> Entry {
        Entry { boxed: Boxed::Imm, offset: Some(0), tag }
    }

    /// Each part equal to the label's, or the label's is `any`.
    #[inline]
    pub fn covered_by(&self, label: &Entry) -> bool {
        (label.boxed == Boxed::Any || label.boxed == self.boxed)
            && (label.offset.is_none() || label.offset == self.offset)
            && (label.tag.is_none() || label.tag == self.tag)
    }
}

#[derive(Clone, Debug)]
struct Row {
    /// How many constants; nothing for `inf`.
    psi: Option<u32>,
    products: Range<usize>,
}

/// All rows, with their products and fields end to end.
#[derive(Clone, Debug, Default)]
pub struct Rows {
    rows: Vec<Row>,
    products: Vec<Range<usize>>,
    fields: Vec<u32>,
}

impl Rows {
    pub fn len(&self) -> usize {
        self.rows.len()
    }

    pub fn is_empty(&self) -> bool {
        self.rows.is_empty()
    }

    pub fn fields(&self) -> usize {
        self.fields.len()
    }

    #[inline]
    pub fn exists(&self, row: u32) -> bool {
        (row as usize) < self.rows.len()
    }

    #[inline]
    pub fn psi(&self, row: u32) -> Option<u32> {
        self.rows[row as usize].psi
    }

    #[inline]
    pub fn suits(&self, row: u32, n: i32) -> bool {
        self.psi(row).is_none_or(|psi| n >= 0 && (n as u32) < psi)
    }

    #[inline]
    pub fn products(&self, row: u32) -> impl ExactSizeIterator<Item = &[u32]> {
        let products = &self.products[self.rows[row as usize].products.clone()];
        products.iter().map(|fields| &self.fields[fields.clone()])
    }

    /// The field rows of the product that a tag names.
    #[inline]
    pub fn product(&self, row: u32, tag: i32) -> Option<&[u32]> {
        self.products(row).nth(usize::try_from(tag).ok()?)
    }

    pub(crate) fn push_row(&mut self, psi: Option<u32>) {
        let end = self.products.len();
        self.rows.push(Row { psi, products: end..end });
    }

    /// Adds a product to the last row; tells how many fields it has, or
    /// nothing if one of them could not be read.
    pub(crate) fn push_product(
        &mut self,
        fields: impl Iterator<Item = Option<u32>>,
    ) -> Option<usize> {
        let start = self.fields.len();
        for field in fields {
            self.fields.push(field?);
        }
        self.products.push(start..self.fields.len());
        self.rows.last_mut()?.products.end += 1;
        Some(self.fields.len() - start)
    }
}

/// A declared variable; a local has its first number.
#[derive(Clone, Copy, Debug)]
pub struct Decl {
    pub kind: Kind,
    pub start: Option<i32>,
}

#[derive(Clone, Copy, Debug, PartialEq, Eq)]
pub enum Op {
    Add,
    Sub,
    Mul,
    Eq,
    Lt,
}

impl Op {
    pub const ALL: [Op; 5] = [Op::Add, Op::Sub, Op::Mul, Op::Eq, Op::Lt];

    #[inline]
    pub fn apply(self, a: i32, b: i32) -> i32 {
        match self {
            Op::Add => a.wrapping_add(b),
            Op::Sub => a.wrapping_sub(b),
            Op::Mul => a.wrapping_mul(b),
            Op::Eq => i32::from(a == b),
            Op::Lt => i32::from(a < b),
        }
    }
}

/// Where the program holds the operands of an operator, side by side.
#[derive(Clone, Copy, Debug)]
pub struct Operands(u32);

/// Eight bytes, to travel in a register: so a row, of which there are few, has
/// but two.
#[derive(Clone, Copy, Debug)]
pub enum Expr {
    Num(i32),
    Var(u32),
    Fetch(Operands),
    Int(Operands),
    Val(u16, Operands),
    Step(Operands),
    Arith(Op, Operands),
}

const _: () = assert!(size_of::<Expr>() == 8);

/// `ifimm`, `iftag` and `ifint`.
#[derive(Clone, Copy, Debug)]
pub enum Test {
    Imm,
    Tag(i32),
    Int(i32),
}

#[derive(Clone, Copy, Debug)]
pub enum Stmt {
    Set(u32, Expr),
    Put(Expr, i32, Expr),
    Goto(u32),
    If(u32, Expr),
    /// A jump to the label if the variable passes the test.
    Test(u32, u32, Test),
    Return(Expr),
    Label(u32),
}

impl Stmt {
    /// The label it may jump to.
    pub fn target(&self) -> Option<u32> {
        match *self {
            Stmt::Goto(label) | Stmt::If(label, _) | Stmt::Test(label, ..) => Some(label),
            Stmt::Set(..) | Stmt::Put(..) | Stmt::Return(_) | Stmt::Label(_) => None,
        }
    }
}

#[derive(Clone, Debug, Default)]
pub struct Program {
    pub(crate) ret: Kind,
    pub(crate) rows: Rows,
    pub(crate) vars: Vec<Decl>,
    /// The operands of all operators.
    pub(crate) operands: Vec<Expr>,
    pub(crate) body: Vec<Stmt>,
    /// The body line of each label.
    pub(crate) targets: Vec<u32>,
    /// One entry for each variable, label after label.
    pub(crate) entries: Vec<Entry>,
}

impl Program {
    /// The operand of an operator that has one.
    #[inline]
    pub(crate) fn one(&self, operands: Operands) -> &Expr {
        &self.operands[operands.0 as usize]
    }

    /// The operands of an operator that has two.
    #[inline]
    pub(crate) fn two(&self, operands: Operands) -> (&Expr, &Expr) {
        let at = operands.0 as usize;
        (&self.operands[at], &self.operands[at + 1])
    }

    /// Holds the operands of a new operator.
    #[inline]
    pub(crate) fn hold<const N: usize>(&mut self, operands: [Expr; N]) -> Operands {
        let at = self.operands.len() as u32;
        self.operands.extend_from_slice(&operands);
        Operands(at)
    }

    #[inline]
    pub(crate) fn kind(&self, var: u32) -> Kind {
        self.vars[var as usize].kind
    }

    /// The environment that a label declares.
    #[inline]
    pub(crate) fn label(&self, label: u32) -> &[Entry] {
        let vars = self.vars.len();
        &self.entries[label as usize * vars..][..vars]
    }

    pub(crate) fn params(&self) -> impl Iterator<Item = Kind> + '_ {
        self.vars.iter().filter(|decl| decl.start.is_none()).map(|decl| decl.kind)
    }

    /// The text's line of a declared variable.
    pub(crate) fn var_line(&self, var: usize) -> usize {
        2 + self.rows.len() + var
    }

    /// The text's line of a body line.
    pub(crate) fn body_line(&self, at: usize) -> usize {
        self.var_line(self.vars.len()) + at
    }
}
