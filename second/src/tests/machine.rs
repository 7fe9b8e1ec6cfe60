//! The machine alone, also over data that no accepted program meets.

use super::ran;
use crate::machine::{Block, Datum, Machine, Step};
use crate::{compile, reader, store};

#[test]
fn machine_steps() {
    let text =
        "ret=int\ntype=inf:\ntype=0:0,1\nparam=value 1\nlocal=int 3\nlabel=any,0,any any,0,any\n\
        put=v0 0 val 0 add v1 int fetch v0\nset=v0 fetch step v0 1\nset=v1 sub v1 1\nif=0 v1\n\
        return=int fetch v0\n";
    let program = compile(text.as_bytes()).unwrap();
    let store = b"run=9\nblock=1 0 i10 b1\nblock=1 0 i20 b0\narg=b0\n";
    let mut machine = Machine::new(&program, store::read(&program, store).unwrap());
    let mut count = 0;
    while machine.step() == Step::Moved {
        count += 1;
    }
    assert_eq!(count, 15);
    assert_eq!(machine.steps(), 16);
    assert_eq!(machine.value(), Some(Datum::Int(22)));
    assert_eq!(machine.blocks()[0].cells[0], Datum::Imm(14));
    assert_eq!(machine.vars()[0], Datum::Place(1, 0));
    let at = machine.at();
    assert_eq!(machine.step(), Step::Returned);
    assert_eq!((machine.steps(), machine.at()), (16, at));
}

#[test]
fn machine_values() {
    let value = |ret: &str, e: &str| {
        let text = format!("ret={ret}\ntype=inf:\ntype=0:1\nparam=value 1\nreturn={e}\nrun=1\nblock=1 0 b0\narg=b0\n");
        ran(&text).value.map(|v| v.to_string()).unwrap_or_default()
    };
    assert_eq!(value("int", "add 2147483647 1"), "c-2147483648");
    assert_eq!(value("int", "sub -2147483648 1"), "c2147483647");
    assert_eq!(value("int", "mul 65536 65536"), "c0");
    assert_eq!(value("int", "mul 123456789 987654321"), "c-67153019");
    assert_eq!(value("int", "lt -1 0"), "c1");
    assert_eq!(value("int", "lt 0 -1"), "c0");
    assert_eq!(value("int", "eq 5 5"), "c1");
    assert_eq!(value("value 0", "val 0 -5"), "i-5");
    assert_eq!(value("value 1", "fetch fetch v0"), "b0");
    assert_eq!(value("value 1", "step v0 0"), "b0");
    assert_eq!(value("int", "int val 0 -2147483648"), "c-2147483648");
}

/// One step of a line over any data: v0 to v3 are a C int 1, the immediate 1,
/// a place at offset 0 and one at offset 1 of a block of tag 1 and two cells.
fn raw_step(line: &str) -> Step {
    let text = format!(
        "ret=int\ntype=inf:\n{}{line}\nlabel=any,0,0 any,0,0 any,0,0 any,0,0\n",
        "param=value 0\n".repeat(4)
    );
    let program = reader::read(text.as_bytes()).unwrap();
    let vars = vec![Datum::Int(1), Datum::Imm(1), Datum::Place(0, 0), Datum::Place(0, 1)];
    let block = Block { row: 0, tag: 1, cells: vec![Datum::Imm(5), Datum::Place(0, 0)] };
    let mut machine = Machine::raw(&program, vec![block], vars.clone());
    let step = machine.step();
    if step == Step::Stuck {
        assert_eq!((machine.at(), machine.steps(), machine.value()), (0, 0, None));
        assert_eq!(machine.vars(), vars);
        assert_eq!(machine.blocks()[0].cells, [Datum::Imm(5), Datum::Place(0, 0)]);
    } else {
        assert_eq!(machine.steps(), 1);
    }
    step
}

const STUCK: [&str; 40] = [
    "set=v0 add v0 v1",
    "set=v0 add v2 v0",
    "set=v0 lt 1 v3",
    "if=0 v1",
    "if=0 v2",
    "set=v0 val 0 v1",
    "set=v0 val 0 v2",
    "set=v0 int v0",
    "set=v0 int v2",
    "set=v0 fetch v0",
    "set=v0 fetch v1",
    "set=v0 fetch 1",
    "set=v0 step v0 0",
    "set=v0 step v1 0",
    "set=v0 step v2 v1",
    "set=v0 step v2 2",
    "set=v0 step v2 -1",
    "set=v0 step v3 1",
    "set=v0 step v3 2147483647",
    "set=v0 step v2 -2147483648",
    "put=v2 2 v1",
    "put=v2 -1 v1",
    "put=v3 1 v1",
    "put=v2 0 v0",
    "put=v0 0 v1",
    "put=v1 0 v1",
    "put=v3 2147483647 v1",
    "ifimm=0 v0",
    "iftag=0 v0 1",
    "iftag=0 v1 1",
    "iftag=0 v3 1",
    "ifint=0 v0 1",
    "ifint=0 v2 1",
    "return=fetch fetch v2",
    "return=int fetch v3",
    "set=v0 step step v2 2 -1",
    "return=int add 1 1",
    "return=fetch val 0 1",
    "return=add val 0 1 1",
    "return=val 0 val 0 1",
];

const MOVED: [&str; 20] = [
    "set=v0 v1",
    "set=v1 v0",
    "set=v1 v3",
    "put=v2 1 v1",
    "put=v3 -1 v3",
    "put=v2 0 v3",
    "ifimm=0 v1",
    "ifimm=0 v2",
    "ifimm=0 v3",
    "iftag=0 v2 1",
    "iftag=0 v2 0",
    "iftag=0 v2 99",
    "ifint=0 v1 1",
    "ifint=0 v1 -7",
    "if=0 v0",
    "if=0 0",
    "set=v0 fetch step step v3 -1 1",
    "set=v0 int fetch v2",
    "set=v0 fetch fetch v3",
    "goto=0",
];

#[test]
fn stuck_steps() {
    for line in STUCK {
        assert_eq!(raw_step(line), Step::Stuck, "{line}");
    }
    for line in MOVED {
        assert_eq!(raw_step(line), Step::Moved, "{line}");
    }
    for line in ["return=v0", "return=v1", "return=v3", "return=step v2 1"] {
        assert_eq!(raw_step(line), Step::Returned, "{line}");
    }
}

#[test]
fn lines_run_out() {
    let program = reader::read(b"ret=int\nlabel=\n").unwrap();
    let mut machine = Machine::raw(&program, Vec::new(), Vec::new());
    assert_eq!(machine.step(), Step::Moved);
    assert_eq!(machine.step(), Step::Stuck);
    machine.run(100);
    assert_eq!((machine.at(), machine.steps(), machine.value()), (1, 1, None));
}
