//! The listing, the bench examples, every number of both tables, every limit.

use super::{bench, glue, ran, stored, P, STORE};
use crate::make::{text_of, LIMITS};
use crate::{run, split, State, Verdict};

/// The answer of a lone expression returned as a row.
fn lone(ret: &str, e: &str) -> u32 {
    let (answer, line) = glue(&bench(ret, &format!("return={e}")));
    assert_eq!(line, if answer == 0 { 0 } else { 7 });
    answer
}

#[test]
fn listing() {
    let outcome = ran(&format!("{P}{STORE}"));
    assert_eq!(outcome.verdict, Verdict::ACCEPTED);
    assert_eq!((outcome.state, outcome.steps), (State::Done, 4));
    assert_eq!(outcome.value.map(|v| v.to_string()).as_deref(), Some("c320"));
}

#[test]
fn bench_examples() {
    assert_eq!(glue(P), (0, 0));
    assert_eq!(glue(&P.replace("type=0:0|0,0", "type=0:0,0|0")), (8, 10));
    assert_eq!(lone("value 2", "val 2 1"), 0);
    assert_eq!(lone("value 2", "val 2 2"), 9);
    assert_eq!(lone("value 2", "val 2 -1"), 9);
    assert_eq!(lone("value 0", "fetch step v0 1"), 0);
    assert_eq!(lone("value 0", "fetch step v0 2"), 8);
    assert_eq!(lone("value 0", "fetch step step v0 1 -1"), 0);
    assert_eq!(lone("value 3", "step v0 1"), 10);
    assert_eq!(lone("value 3", "step v0 0"), 0);
    assert_eq!(lone("value 2", "val 2 mul 65536 65536"), 0);
    assert_eq!(glue(&bench("int", "goto=0\nlabel=box,0,0\nreturn=0")), (11, 7));
    assert_eq!(glue(&bench("int", "return=0\nreturn=0")), (12, 8));
    assert_eq!(glue("ret=int\n"), (13, 1));
    let outcome = ran(&format!("{P}{}", STORE.replace("run=10", "run=3")));
    assert_eq!((outcome.state, outcome.steps, outcome.value), (State::Running, 3, None));
}

#[test]
fn every_glue_answer() {
    assert_eq!(glue("ret=int\nreturn=0\n"), (0, 0));
    assert_eq!(glue(&"x".repeat(32_769)), (1, 0));
    assert_eq!(glue(""), (2, 1));
    assert_eq!(glue(&format!("ret=int\nreturn={}1\n", "add 1 ".repeat(16))), (3, 2));
    assert_eq!(glue("ret=value 0\n"), (4, 1));
    assert_eq!(glue("ret=int\ngoto=0\n"), (4, 2));
    assert_eq!(glue("ret=int\nreturn=v0\n"), (4, 2));
    assert_eq!(glue("ret=int\nparam=int\nlabel=imm,0,any\n"), (5, 3));
    assert_eq!(glue("ret=int\ntype=1:\nreturn=val 0 0\n"), (6, 3));
    assert_eq!(glue("ret=int\ntype=1:0\nparam=value 0\nreturn=int v0\n"), (7, 4));
    assert_eq!(glue("ret=int\ntype=0:0\nparam=value 0\nput=v0 1 v0\n"), (8, 4));
    assert_eq!(glue("ret=int\ntype=0:\nlocal=value 0 0\n"), (9, 3));
    assert_eq!(glue("ret=value 0\ntype=0:0,0\nparam=value 0\nreturn=step v0 1\n"), (10, 4));
    assert_eq!(glue("ret=int\nparam=int\nlabel=any,0,1\n"), (11, 3));
    assert_eq!(glue("ret=int\nreturn=0\nreturn=0\n"), (12, 3));
    assert_eq!(glue("ret=int\nlabel=\n"), (13, 2));
}

#[test]
fn every_store_answer() {
    assert_eq!(stored(P, STORE), (0, 0));
    assert_eq!(stored(P, &format!("run=1\n{}", "x".repeat(16_384))), (21, 0));
    assert_eq!(stored(P, ""), (22, 1));
    assert_eq!(stored(P, "run=1\n"), (22, 2));
    assert_eq!(stored(P, "run=1\narg=b0\narg=b0\n"), (22, 3));
    assert_eq!(stored(P, "run=1000001\n"), (23, 1));
    assert_eq!(stored(P, "run=1\narg=b0\n"), (24, 2));
    assert_eq!(stored(P, "run=1\nblock=2 0 i0\narg=i0\n"), (24, 2));
    assert_eq!(stored(P, "run=1\nblock=1 2 i0\narg=b0\n"), (25, 2));
    assert_eq!(stored(P, "run=1\nblock=1 -1 i0\narg=b0\n"), (25, 2));
    assert_eq!(stored(P, "run=1\nblock=1 0 i0 i0\narg=b0\n"), (25, 2));
    assert_eq!(stored(P, "run=1\nblock=1 0 b0\narg=b0\n"), (26, 2));
    assert_eq!(stored(P, "run=1\nblock=1 0 i0\narg=c0\n"), (27, 3));
    assert_eq!(stored(P, "run=1\narg=i0\n"), (27, 2));
}

#[test]
fn limits_met_and_passed() {
    for limit in LIMITS {
        let met = run((limit.text)(0).as_bytes());
        assert_eq!(met.verdict, Verdict::ACCEPTED, "{}", limit.name);
        let passed = run((limit.text)(1).as_bytes());
        assert_eq!(passed.verdict.answer, limit.answer, "{}", limit.name);
    }
}

/// The line named is the one at which a count first passes its limit.
#[test]
fn limits_name_their_line() {
    let lines = [("rows", 66), ("variables", 34), ("labels", 66), ("body lines", 514 + 1)];
    let more = [("fields", 6), ("nodes", 459), ("blocks", 258), ("cells", 130), ("budget", 1)];
    for (name, line) in lines.into_iter().chain(more) {
        let limit = LIMITS.iter().find(|limit| limit.name == name).unwrap();
        assert_eq!(run((limit.text)(1).as_bytes()).verdict.line, line, "{name}");
    }
}

#[test]
fn texts_have_the_length_asked_for() {
    for bytes in [1_000, 5_000, 30_000, 32_767, 32_768] {
        let text = text_of(bytes);
        assert_eq!(split(text.as_bytes()).0.len(), bytes);
        assert_eq!(ran(&text).verdict, Verdict::ACCEPTED);
    }
    let store = LIMITS.iter().find(|limit| limit.name == "store bytes").unwrap();
    assert_eq!(split((store.text)(0).as_bytes()).1.len(), 16_384);
}
