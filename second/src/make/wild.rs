//! Lines and entries of right shape whose names exist, but with no regard to
//! the rules.

use super::rng::Rng;
use super::stores;
use crate::program::{Boxed, Entry, Kind, Op, Program};
use crate::reader;

/// How many rows, variables and labels there are to name.
#[derive(Clone, Copy)]
pub(super) struct Names {
    pub(super) rows: usize,
    pub(super) vars: usize,
    pub(super) labels: usize,
}

impl Names {
    pub(super) fn of(program: &Program) -> Self {
        let (rows, vars) = (program.rows.len(), program.vars.len());
        Names { rows, vars, labels: program.targets.len() }
    }
}

fn expr(rng: &mut Rng, names: Names, room: u32) -> String {
    let operand = |rng: &mut Rng| expr(rng, names, room - 1);
    match rng.below(if room > 1 { 20 } else { 6 }) {
        0 | 1 => rng.pick(&[0, 0, 1, -1, 2, -7, 7, i32::MAX, i32::MIN]).to_string(),
        2..=5 if names.vars > 0 => format!("v{}", rng.below(names.vars)),
        2..=5 => rng.number().to_string(),
        6..=9 => format!("fetch {}", operand(rng)),
        10 | 11 => format!("int {}", operand(rng)),
        12 | 13 => format!("val {} {}", rng.below(names.rows), operand(rng)),
        14..=17 => format!("step {} {}", operand(rng), operand(rng)),
        _ => format!("{} {} {}", rng.pick(&Op::ALL), operand(rng), operand(rng)),
    }
}

/// Any body line but a label or a `goto`.
pub(super) fn line(rng: &mut Rng, names: Names) -> String {
    let room = 1 + rng.below(4) as u32;
    let (var, label) = (rng.below(names.vars), rng.below(names.labels));
    let n = rng.pick(&[0, 0, 1, 1, 2, -1, -7, 5]);
    let (some_var, some_label) = (names.vars > 0, names.labels > 0);
    match rng.below(9) {
        0 | 1 if some_var => format!("set=v{var} {}", expr(rng, names, room)),
        2 | 3 => format!("put={} {n} {}", expr(rng, names, room), expr(rng, names, room)),
        4 if some_label => format!("if={label} {}", expr(rng, names, room)),
        5 if some_var && some_label => format!("ifimm={label} v{var}"),
        6 if some_var && some_label => format!("iftag={label} v{var} {n}"),
        7 if some_var && some_label => format!("ifint={label} v{var} {n}"),
        _ => format!("return={}", expr(rng, names, room)),
    }
}

/// Any entry of the kind, with those that are near a rule more often.
pub(super) fn entry(rng: &mut Rng, kind: Kind) -> Entry {
    let known = |boxed, offset, tag| Entry { boxed, offset, tag };
    if kind == Kind::Int {
        let number = rng.number();
        return Entry::int(rng.pick(&[None, None, Some(0), Some(1), Some(-7), Some(number)]));
    }
    match rng.below(10) {
        0 => known(Boxed::Any, None, None),
        1 => known(Boxed::Box, Some(7), Some(1)),
        2 => Entry::int(Some(0)),
        3 => known(Boxed::Box, Some(0), None),
        4 => known(Boxed::Box, Some(0), Some(0)),
        5 => Entry::LOOSE,
        _ => known(
            rng.pick(&[Boxed::Any, Boxed::Box, Boxed::Box, Boxed::Imm]),
            rng.pick(&[None, Some(0), Some(0), Some(0), Some(1), Some(i32::MAX as u32)]),
            rng.pick(&[None, Some(-1), Some(0), Some(0), Some(1), Some(2), Some(99)]),
        ),
    }
}

/// Wild lines behind a label that nothing reaches, so that any entries and any
/// collisions of faults come up. The second label often asks little, so that
/// jumps to it are covered.
pub(super) fn collision(rng: &mut Rng) -> String {
    let (ret, first, last) = rng.pick(&[
        ("int", "0", "0"),
        ("value 0", "val 0 7", "val 0 7"),
        ("value 3", "v0", "fetch step v0 1"),
    ]);
    let mut text = format!("ret={ret}\ntype=inf:\ntype=0:0|0,0\ntype=2:\ntype=0:0,3\ntype=1:3,2\n");
    let mut some_row = || Kind::Value(rng.below(5) as u32);
    let kinds = [Kind::Value(3), Kind::Value(1), Kind::Int, some_row(), some_row()];
    for kind in kinds {
        text += &format!("param={kind}\n");
    }
    let header = reader::read(text.as_bytes()).expect("the header names its own rows");
    let store = stores::fitting(rng, &header);
    let own = kinds.map(|kind| entry(rng, kind).to_string());
    let other = if rng.chance(50) {
        kinds.map(|kind| entry(rng, kind).to_string())
    } else {
        let easy = kinds.map(|kind| if kind == Kind::Int { "any,0,any" } else { "any,any,any" });
        std::array::from_fn(|at| if rng.chance(80) { easy[at].to_owned() } else { own[at].clone() })
    };
    text += &format!("return={first}\nlabel={}\n", own.join(" "));
    let names = Names { labels: 2, ..Names::of(&header) };
    let mut wild = line(rng, names);
    if rng.chance(50) && !wild.starts_with("return=") {
        wild = format!("{wild}\n{}", line(rng, names));
    }
    let last = if wild.contains("return=") { String::new() } else { format!("return={last}\n") };
    text + &format!("{wild}\n{last}label={}\ngoto=1\n{store}", other.join(" "))
}
