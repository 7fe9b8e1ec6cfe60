//! Tests against the words of document 01 and its rulings.

mod generator;
mod machine;
mod rulings;
mod tables;

use crate::{check, run, Outcome};

const P: &str = "ret=int\ntype=inf:\ntype=0:0|0,0\nparam=value 1\nifimm=0 v0\niftag=1 v0 1\n\
    label=any,0,any\nreturn=-1\nlabel=box,0,1\nreturn=add int fetch v0 int fetch step v0 1\n";
const STORE: &str = "run=10\nblock=1 1 i300 i20\narg=b0\n";

fn glue(text: &str) -> (u32, u32) {
    check(text.as_bytes())
}

fn ran(text: &str) -> Outcome {
    run(text.as_bytes())
}

fn stored(program: &str, text: &str) -> (u32, u32) {
    let verdict = ran(&format!("{program}{text}")).verdict;
    (verdict.answer, verdict.line)
}

/// The bench rows, v0 of row 3, and a body.
fn bench(ret: &str, body: &str) -> String {
    format!("ret={ret}\ntype=inf:\ntype=0:0|0,0\ntype=2:\ntype=0:0,0\nparam=value 3\n{body}\n")
}
