//! Texts with an answer that is wanted: a fault is put into an accepted text,
//! again and again until the answer comes. If 0 is wanted, that is a line which
//! no guidance led to and which is accepted all the same.

use super::damage::{lines, one_line, renumber, unlines};
use super::rng::Rng;
use super::wild::{self, Names};
use super::{author, stores};
use crate::program::Program;
use crate::run;

/// Lines of wrong shape, or out of their order almost everywhere.
const MISSHAPEN: &str = "\n \nret=int\ntype=0:\nparam=int\nlocal=int\nset=v0\ngoto=01\ngoto=-1\n\
    label=any,0\nlabel=any,0,any,0\nreturn=add 1\nreturn=1 2\nreturn=v\nreturn=v01\n\
    return=2147483648\nreturn=-2147483649\nreturn=-0\ntype=0:0,\ntype=0:|0\ntype=-1:\nif=0\n\
    put=v0 v0 1\nreturn=+1\n\u{e9}=1\nreturn=1\r\nreturn=\t1\ntype=0\nlocal=value 0\nfrob=1\nreturn";

/// The same for stores.
const MISSHAPEN_STORE: &str = "run=-1\nrun=2147483648\nrun=\nblock=0 0\nblock=0 0 c1\n\
    block=-1 0 i1\nblock=0 0  i1\narg=\narg=c\narg=b-1\narg=i01\n\nblock=0 0 i1 \narg=v0\n\
    goto=0\nrun=01\nblock=0 -0 i1\narg=c0";

pub(super) fn text(rng: &mut Rng, wanted: u32) -> String {
    let mut text = String::new();
    for _ in 0..12 {
        let program = author::program(rng, 12);
        let store = stores::fitting(rng, &program).to_string();
        for _ in 0..16 {
            text = if wanted < 20 {
                glue_fault(rng, wanted, &program) + &store
            } else {
                program.to_string() + &store_fault(rng, wanted, lines(&store))
            };
            if run(text.as_bytes()).verdict.answer == wanted {
                return text;
            }
        }
    }
    text
}

/// The program's text with a fault that often gives the answer.
fn glue_fault(rng: &mut Rng, wanted: u32, program: &Program) -> String {
    let mut lines = lines(&program.to_string());
    let header = lines.len() - program.body.len();
    let at = rng.below(lines.len());
    match wanted {
        2 => return misshapen(rng, lines, MISSHAPEN),
        4 => {
            let by = rng.pick(&["64", "32", "9", "2147483647"]);
            renumber(rng, &mut lines[at], by);
        }
        5 => entry(rng, &mut lines, |rng, _| {
            let wrong = ["imm,0,1", "box,0,any", "any,any,any", "any,1,5", "any,any,3"];
            rng.pick(&wrong).to_owned()
        }),
        9 if rng.chance(25) => {
            // Where the line declares a local, this may be its number.
            let by = rng.number().to_string();
            renumber(rng, &mut lines[at % header], &by);
        }
        11 if rng.chance(25) => {
            entry(rng, &mut lines, |rng, var| wild::entry(rng, program.vars[var].kind).to_string())
        }
        12 => lines.insert(at + 1, lines[header + rng.below(program.body.len())].clone()),
        13 => lines.truncate(if rng.chance(20) { 1 + rng.below(header) } else { lines.len() - 1 }),
        _ => {
            let line = wild::line(rng, Names::of(program));
            let at = header + rng.below(program.body.len());
            match rng.below(4) {
                0 => lines[at] = line,
                _ => lines.insert(at, line),
            }
        }
    }
    unlines(&lines)
}

/// A line of wrong shape put in, or the last line feed dropped.
fn misshapen(rng: &mut Rng, mut lines: Vec<String>, shapes: &str) -> String {
    let at = rng.below(lines.len());
    let shape = rng.pick(&shapes.split('\n').collect::<Vec<_>>()).to_owned();
    match rng.below(8) {
        0 => {
            let mut text = unlines(&lines);
            text.pop();
            return text;
        }
        1..=3 => lines[at] = shape,
        _ => lines.insert(at, shape),
    }
    unlines(&lines)
}

/// Another entry for some variable at some label.
fn entry(rng: &mut Rng, lines: &mut [String], by: impl Fn(&mut Rng, usize) -> String) {
    let labels = |&at: &usize| lines[at].starts_with("label=") && lines[at].contains(',');
    let Some(at) = rng.pick_where(lines.len(), labels) else { return };
    let entries = &lines[at]["label=".len()..];
    let mut entries: Vec<String> = entries.split(' ').map(str::to_owned).collect();
    let var = rng.below(entries.len());
    entries[var] = by(rng, var);
    lines[at] = format!("label={}", entries.join(" "));
}

/// The store's text with a fault that often gives the answer.
fn store_fault(rng: &mut Rng, wanted: u32, mut lines: Vec<String>) -> String {
    let blocks = |cells: usize, times: usize| {
        vec![format!("block=0 0{}", " i1".repeat(cells)); times].join("\n")
    };
    match wanted {
        21 => lines.push(blocks(1, 1_270 + rng.below(60))),
        22 if rng.chance(60) => return misshapen(rng, lines, MISSHAPEN_STORE),
        23 => match rng.below(3) {
            0 => lines[0] = format!("run={}", 1_000_001 + rng.below(9)),
            1 => lines.insert(1, blocks(1, 257)),
            _ => lines.insert(1, blocks(17, 121)),
        },
        _ => (0..1 + rng.below(2)).for_each(|_| one_line(rng, &mut lines)),
    }
    unlines(&lines)
}
