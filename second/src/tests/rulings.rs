//! Each reading of document 01 that is easy to miss, by its number.

use super::{bench, glue, ran, stored, P, STORE};
use crate::make::text_of;
use crate::{run, split, State, Verdict, JOINED_BYTES};

/// Answer of a line behind an unreached label with these entries for
/// v0 row 3, v1 row 1, v2 row 2, v3 int, v4 row 0; 0 or a fault at line 13.
fn under(entries: &str, line: &str) -> u32 {
    let text = format!(
        "ret=int\ntype=inf:\ntype=0:0|0,0\ntype=2:\ntype=0:0,0\nparam=value 3\nparam=value 1\n\
         param=value 2\nparam=int\nparam=value 0\nreturn=0\nlabel={entries}\n{line}\nreturn=0\n\
         label=any,any,any any,any,any any,any,any any,0,any any,any,any\nreturn=0\n\
         label=imm,0,0 imm,0,0 imm,0,0 any,0,1 imm,0,0\nreturn=0\n"
    );
    let (answer, at) = glue(&text);
    assert_eq!(at, if answer == 0 { 0 } else { 13 }, "{text}");
    answer
}

const LOOSE: &str = "any,0,any any,0,any any,0,any any,0,any any,0,any";

#[test]
fn ruling_1_lines() {
    assert_eq!(glue("ret=int"), (2, 1));
    assert_eq!(glue("ret=int\nreturn=0"), (2, 2));
    assert_eq!(glue(&format!("ret=int\nreturn={}1", "add 1 ".repeat(16))), (2, 2));
    for odd in ["\n", "return=0\r\n", "return=\t0\n", "return=\u{0}\n", "return=\u{e9}\n", " \n"] {
        assert_eq!(glue(&format!("ret=int\n{odd}return=0\n")), (2, 2), "{odd:?}");
    }
    assert_eq!(glue("\n"), (2, 1));
    assert_eq!(glue("ret=int\nreturn=0\n\n"), (2, 3));
    assert_eq!(stored("ret=int\nreturn=0\n", "run=1"), (22, 1));
    assert_eq!(stored("ret=int\nreturn=0\n", "run=1000001"), (22, 1));
}

#[test]
fn ruling_2_shape_before_limit_in_a_line() {
    let deep = "add 1 ".repeat(16);
    assert_eq!(glue(&format!("ret=int\nreturn={deep}1\nfrob\n")), (3, 2));
    assert_eq!(glue(&format!("ret=int\nreturn={deep}1 1\n")), (2, 2));
    assert_eq!(glue(&format!("ret=int\nreturn={deep}01\n")), (2, 2));
    assert_eq!(glue(&format!("ret=int\nreturn={}1\n", "int ".repeat(8_000))), (3, 2));
    assert_eq!(glue(&format!("ret=int\nreturn={}\n", "int ".repeat(8_000))), (2, 2));
    assert_eq!(glue(&format!("ret=int\nreturn={}1\n", "add ".repeat(8_000))), (2, 2));
    assert_eq!(glue(&format!("ret=int\nreturn={}val 9 v9\n", "int ".repeat(80))), (3, 2));
    assert_eq!(glue(&format!("ret=int\nreturn={}val -9 v9\n", "int ".repeat(80))), (2, 2));
    assert_eq!(glue(&format!("ret=int\ntype=0:0{}|\n", "|0".repeat(15))), (2, 2));
    assert_eq!(glue(&format!("ret=int\ntype=0:0{}|0\n", "|0".repeat(15))), (3, 2));
    assert_eq!(glue(&format!("ret=int\n{}local=int 01\n", "param=int\n".repeat(32))), (2, 34));
    assert_eq!(glue(&format!("ret=int\n{}local=int 1\n", "param=int\n".repeat(32))), (3, 34));
    let body = "goto=0\n".repeat(512);
    assert_eq!(glue(&format!("ret=int\n{body}frob=1\n")), (2, 514));
    assert_eq!(glue(&format!("ret=int\n{body}goto=0\nfrob\n")), (3, 514));
}

#[test]
fn ruling_3_keys() {
    assert_eq!(glue("type=0:\nret=int\n"), (2, 1));
    assert_eq!(glue("return=0\n"), (2, 1));
    assert_eq!(glue("ret=int\nret=int\n"), (2, 2));
    assert_eq!(glue("ret=int\nparam=int\ntype=0:\n"), (2, 3));
    assert_eq!(glue("ret=int\nreturn=0\nparam=int\n"), (2, 3));
    assert_eq!(glue("ret=int\nlocal=int 1\nparam=int\nlocal=int 1\nreturn=0\n"), (0, 0));
    assert_eq!(glue(&format!("ret=int\n{}param=int\ntype=0:\n", "type=0:\n".repeat(64))), (2, 67));
    assert_eq!(glue("ret=int\nreturn=0\nrun=1\n"), (2, 3));
    assert_eq!(glue("ret=int\nRETURN=0\n"), (2, 2));
    assert_eq!(glue("ret=int \nreturn=0\n"), (2, 1));
    assert_eq!(glue("ret=value\n"), (2, 1));
    assert_eq!(glue("ret=int 0\n"), (2, 1));
}

#[test]
fn ruling_4_numbers() {
    for bad in [
        "2147483648",
        "-2147483649",
        "-0",
        "+1",
        "01",
        "",
        "v",
        "v01",
        "v-1",
        "-",
        "1a",
        "99999999999",
        "00",
        "--1",
        "v2147483648",
    ] {
        assert_eq!(glue(&format!("ret=int\nreturn={bad}\n")), (2, 2), "{bad}");
    }
    assert_eq!(glue("ret=int\nreturn=-2147483648\n"), (0, 0));
    assert_eq!(glue("ret=int\ngoto=2147483647\n"), (4, 2));
    assert_eq!(glue("ret=int\ngoto=2147483648\n"), (2, 2));
    assert_eq!(glue("ret=int\ngoto=-1\n"), (2, 2));
    assert_eq!(glue("ret=value -1\n"), (2, 1));
    assert_eq!(glue("ret=int\ntype=-1:\nreturn=0\n"), (2, 2));
    assert_eq!(glue("ret=int\ntype=2147483647:\nreturn=0\n"), (0, 0));
    assert_eq!(glue("ret=int\ntype=2147483648:\nreturn=0\n"), (2, 2));
    assert_eq!(glue("ret=int\nreturn=val -1 0\n"), (2, 2));
    assert_eq!(glue("ret=int\nset=0 0\n"), (2, 2));
    assert_eq!(under(LOOSE, "put=v0 -1 v4"), 8);
    assert_eq!(glue("ret=int\ntype=0:\nparam=value 0\ngoto=0\nlabel=any,-1,0\nreturn=0\n"), (2, 5));
    assert_eq!(
        glue("ret=int\ntype=0:\nparam=value 0\nreturn=0\nlabel=any,1,-5\nreturn=0\n"),
        (0, 0)
    );
}

#[test]
fn ruling_5_and_6_fields_and_entries() {
    for bad in [
        "0:0,", "0:,0", "0:|0", "0:0|", "0:0||0", "0", ":0", "inf", "0: 0", "0:0 ", "0:0:0", "Inf:",
    ] {
        assert_eq!(glue(&format!("ret=int\ntype={bad}\nreturn=0\n")), (2, 2), "{bad}");
    }
    assert_eq!(glue("ret=int\nlabel=\nreturn=0\n"), (0, 0));
    assert_eq!(glue("ret=int\nlabel\nreturn=0\n"), (2, 2));
    assert_eq!(glue("ret=int\nlabel=any,0,any\nreturn=0\n"), (2, 2));
    let two = "ret=int\nparam=int\nlocal=int 1\n";
    assert_eq!(glue(&format!("{two}label=any,0,any\nreturn=0\n")), (2, 4));
    assert_eq!(glue(&format!("{two}label=any,0,any any,0,1\nreturn=0\n")), (0, 0));
    assert_eq!(glue(&format!("{two}label=any,0,any any,0,1 any,0,1\nreturn=0\n")), (2, 4));
    assert_eq!(glue(&format!("{two}label=any,0,any any,0,1 \nreturn=0\n")), (2, 4));
    for bad in ["any,0", "any,0,any,0", "Any,0,any", "any,,any", "any,0,", "imm,01,1", "any,0,inf"]
    {
        assert_eq!(glue(&format!("ret=int\nparam=int\nlabel={bad}\nreturn=0\n")), (2, 3), "{bad}");
    }
}

#[test]
fn ruling_7_depth() {
    let steps = |n: usize| format!("{}v0{}", "step ".repeat(n), " 0".repeat(n));
    assert_eq!(glue(&bench("value 3", &format!("return={}", steps(15)))), (0, 0));
    assert_eq!(glue(&bench("value 3", &format!("return={}", steps(16)))), (3, 7));
    let both = format!("put={} 0 val 0 {}1", steps(15), "add 1 ".repeat(14));
    assert_eq!(glue(&bench("int", &format!("{both}\nreturn=0"))), (0, 0));
    let both = format!("put={} 0 val 0 {}1", steps(15), "add 1 ".repeat(15));
    assert_eq!(glue(&bench("int", &format!("{both}\nreturn=0"))), (3, 7));
}

#[test]
fn ruling_10_and_11_names() {
    assert_eq!(glue("ret=value 1\ntype=0:1\ntype=1:0,1\nreturn=val 1 0\n"), (0, 0));
    assert_eq!(glue("ret=int\ntype=0:1\nreturn=0\n"), (4, 2));
    assert_eq!(glue("ret=int\ngoto=1\nlabel=\nreturn=0\nlabel=\nreturn=0\n"), (0, 0));
    assert_eq!(glue("ret=int\nreturn=0\nreturn=v0\n"), (4, 3));
    assert_eq!(glue("ret=int\nreturn=val 0 0\n"), (4, 2));
    // The earliest line wins.
    assert_eq!(glue("ret=int\nparam=int\nlabel=box,0,any\ngoto=9\n"), (5, 3));
    assert_eq!(glue("ret=int\nparam=int\ngoto=9\nlabel=box,0,any\n"), (4, 3));
    assert_eq!(glue("ret=int\nparam=int\nreturn=v1\ngoto=9\n"), (4, 3));
    assert_eq!(glue("ret=int\nparam=int\ngoto=9\nreturn=v1\n"), (4, 3));
    assert_eq!(glue("ret=int\nparam=value 0\nlabel=box,7,99\n"), (4, 2));
    for entry in ["any,any,any", "any,any,3", "any,1,any", "imm,0,3", "box,0,3"] {
        assert_eq!(
            glue(&format!("ret=int\nparam=int\nreturn=0\nlabel={entry}\nreturn=0\n")),
            (5, 4)
        );
    }
    assert_eq!(under("box,7,99 box,7,99 box,7,99 any,0,5 imm,8,-4", "set=v3 1"), 0);
}

#[test]
fn ruling_12_order_in_a_line() {
    assert_eq!(under(LOOSE, "set=v3 add val 2 5 v0"), 9);
    assert_eq!(under(LOOSE, "set=v3 add v0 val 2 5"), 9);
    assert_eq!(under(LOOSE, "set=v3 add fetch v1 val 2 5"), 7);
    assert_eq!(under(LOOSE, "set=v3 add int v0 fetch v1"), 7);
    assert_eq!(under(LOOSE, "set=v0 fetch step v0 2"), 8);
    assert_eq!(under(LOOSE, "put=v3 0 val 2 5"), 9);
    assert_eq!(under(LOOSE, "put=v3 0 v3"), 6);
    assert_eq!(under(LOOSE, "return=step v0 1"), 6);
    // return: 6, also for another row, then 10
    assert_eq!(glue(&bench("value 0", "return=v0")), (6, 7));
    assert_eq!(glue(&bench("value 0", "return=step v0 1")), (6, 7));
    assert_eq!(glue(&bench("value 3", "return=0")), (6, 7));
    assert_eq!(glue(&bench("value 3", "return=step v0 1")), (10, 7));
}

#[test]
fn ruling_13_address() {
    let with = |entry: &str| format!("{entry} any,0,any any,0,any any,0,any any,0,any");
    assert_eq!(under(&with("any,0,any"), "set=v4 fetch v0"), 0);
    assert_eq!(under(&with("box,0,0"), "set=v4 fetch v0"), 0);
    for entry in
        ["box,0,any", "any,0,0", "any,any,any", "imm,0,0", "imm,0,any", "box,any,0", "any,1,any"]
    {
        assert_eq!(under(&with(entry), "set=v4 fetch v0"), 7, "{entry}");
        assert_eq!(under(&with(entry), "set=v4 fetch step v0 0"), 7, "{entry}");
        assert_eq!(under(&with(entry), "put=v0 0 v4"), 7, "{entry}");
    }
    assert_eq!(under(LOOSE, "set=v4 fetch v1"), 7);
    assert_eq!(under(LOOSE, "set=v4 fetch v2"), 7);
    assert_eq!(under(LOOSE, "set=v4 fetch 1"), 6);
    assert_eq!(under(&with("box,0,1"), "set=v4 fetch v0"), 8);
    assert_eq!(under(&with("box,0,-1"), "set=v4 fetch v0"), 8);
    // The loose entry is an address in a row with PSI 0 and one product alone.
    for (row, answer) in [("0:0", 0), ("1:0", 7), ("inf:0", 7), ("0:0|0", 7), ("0:", 7)] {
        let text = format!("ret=value 0\ntype={row}\nparam=value 0\nreturn=fetch v0\n");
        assert_eq!(glue(&text).0, answer, "{row}");
    }
    // After `ifimm` falls the one-product row is no longer loose.
    assert_eq!(
        glue(&bench("value 0", "ifimm=0 v0\nreturn=fetch v0\nlabel=any,0,any\nreturn=fetch v0")),
        (7, 8)
    );
}

#[test]
fn ruling_14_orders_of_the_forms() {
    let v1 = |entry: &str| format!("any,0,any {entry} any,0,any any,0,any any,0,any");
    // step: 6, 6, 7, 7, 8, 8
    assert_eq!(under(LOOSE, "set=v1 step v3 v1"), 6);
    assert_eq!(under(LOOSE, "set=v1 step v1 v1"), 6);
    assert_eq!(under(LOOSE, "set=v1 step v1 9"), 7);
    assert_eq!(under(&v1("box,0,9"), "set=v1 step v1 v3"), 7);
    assert_eq!(under(&v1("box,0,9"), "set=v1 step v1 0"), 8);
    assert_eq!(under(&v1("box,7,1"), "set=v1 step v1 -7"), 0);
    assert_eq!(under(&v1("box,7,1"), "set=v1 step v1 -6"), 0);
    assert_eq!(under(&v1("box,7,1"), "set=v1 step v1 -5"), 8);
    assert_eq!(under(&v1("box,7,1"), "set=v1 step v1 -8"), 8);
    assert_eq!(under(&v1("box,2147483647,1"), "set=v1 step v1 2147483647"), 8);
    assert_eq!(under(&v1("box,2147483647,1"), "set=v1 step v1 -2147483647"), 0);
    assert_eq!(under(&v1("box,7,1"), "set=v4 fetch v1"), 8);
    assert_eq!(under(&v1("box,7,1"), "put=v1 -7 v4"), 0);
    // put: A 6, 7, 8, then E 6, 10
    assert_eq!(under(LOOSE, "put=v1 9 v3"), 7);
    assert_eq!(under(LOOSE, "put=v0 9 v3"), 8);
    assert_eq!(under(LOOSE, "put=v0 0 v3"), 6);
    assert_eq!(under(LOOSE, "put=v0 0 v2"), 6);
    assert_eq!(under("any,0,any any,0,any any,0,any any,0,any any,any,any", "put=v0 0 v4"), 10);
    // int: 6, 7, 10
    assert_eq!(under(&v1("any,1,any"), "set=v3 int v1"), 7);
    assert_eq!(under(&v1("imm,1,any"), "set=v3 int v1"), 10);
    assert_eq!(under(LOOSE, "set=v3 int v3"), 6);
    assert_eq!(under("any,0,any any,0,any any,any,5 any,0,any any,0,any", "set=v3 int v2"), 10);
    assert_eq!(under("any,0,any any,0,any box,0,5 any,0,any any,0,any", "set=v3 int v2"), 7);
    assert_eq!(under(LOOSE, "set=v3 int v2"), 0);
}

#[test]
fn ruling_14_orders_of_the_tests() {
    let v1 = |entry: &str| format!("any,0,any {entry} any,0,any any,0,any any,0,any");
    let v2 = |entry: &str| format!("any,0,any any,0,any {entry} any,0,any any,0,any");
    // iftag and ifint: 6, 10, 7, 8 or 9, 11
    assert_eq!(under(LOOSE, "iftag=1 v3 0"), 6);
    assert_eq!(under(&v1("imm,1,any"), "iftag=1 v1 9"), 10);
    assert_eq!(under(&v1("imm,0,any"), "iftag=2 v1 9"), 7);
    assert_eq!(under(&v1("any,0,any"), "iftag=2 v1 9"), 7);
    assert_eq!(under(&v1("box,0,any"), "iftag=2 v1 2"), 8);
    assert_eq!(under(&v1("box,0,any"), "iftag=2 v1 -1"), 8);
    assert_eq!(under(&v1("box,0,any"), "iftag=2 v1 1"), 11);
    assert_eq!(under(&v1("box,0,any"), "iftag=1 v1 1"), 0);
    assert_eq!(under(LOOSE, "ifint=1 v3 0"), 6);
    assert_eq!(under(&v1("box,1,any"), "ifint=1 v1 9"), 10);
    assert_eq!(under(&v1("box,0,any"), "ifint=1 v1 9"), 7);
    assert_eq!(under(&v1("imm,0,any"), "ifint=2 v1 0"), 9);
    assert_eq!(under(&v2("imm,0,any"), "ifint=2 v2 2"), 9);
    assert_eq!(under(&v2("imm,0,any"), "ifint=2 v2 1"), 11);
    assert_eq!(under(&v2("imm,0,any"), "ifint=1 v2 1"), 0);
    // if and ifimm
    assert_eq!(under(LOOSE, "if=2 v0"), 6);
    assert_eq!(under(LOOSE, "if=2 v3"), 11);
    assert_eq!(under(LOOSE, "if=1 v3"), 0);
    assert_eq!(under(LOOSE, "ifimm=2 v3"), 6);
    assert_eq!(under(&v1("any,any,any"), "ifimm=2 v1"), 10);
    assert_eq!(under(LOOSE, "ifimm=2 v1"), 11);
    assert_eq!(under(&v1("box,0,1"), "ifimm=1 v1"), 0);
    // val: 6, 9
    assert_eq!(under(LOOSE, "set=v2 val 2 v2"), 6);
    assert_eq!(under(LOOSE, "set=v2 val 2 v3"), 9);
    assert_eq!(under(LOOSE, "set=v4 val 0 v3"), 0);
    assert_eq!(under(LOOSE, "set=v2 val 0 v3"), 6);
}

#[test]
fn ruling_15_refinements() {
    // Both sides are refined whatever was known; I and T are kept.
    let text = "ret=int\ntype=inf:\ntype=3:0|0,0\nparam=value 1\nreturn=0\nlabel=imm,0,1\n\
                ifimm=1 v0\nreturn=int fetch step v0 1\nlabel=imm,0,1\nreturn=int v0\n";
    assert_eq!(glue(text), (0, 0));
    // The falling side of `iftag` learns nothing.
    let text = "ret=int\ntype=inf:\ntype=0:0\nparam=value 1\nifimm=0 v0\niftag=0 v0 0\n\
                return=int fetch v0\nlabel=any,0,any\nreturn=0\n";
    assert_eq!(glue(text), (7, 7));
    // `set` takes the whole entry.
    assert_eq!(
        glue("ret=value 0\ntype=2:\nlocal=int 1\nparam=int\nset=v0 v1\nreturn=val 0 v0\n"),
        (9, 6)
    );
    assert_eq!(glue("ret=value 0\ntype=2:\nlocal=int 9\nset=v0 1\nreturn=val 0 v0\n"), (0, 0));
    // Falling into a label is tested at the label.
    assert_eq!(glue("ret=int\nlocal=int 1\nset=v0 2\nlabel=any,0,1\nreturn=0\n"), (11, 4));
    assert_eq!(glue("ret=int\nlocal=int 1\nset=v0 2\nlabel=any,0,2\nreturn=v0\n"), (0, 0));
}

/// Each part of an entry is covered by an equal one or by `any`, at a jump and
/// at a label.
#[test]
fn covered_part_by_part() {
    let parts = |entry: &str| entry.split(',').map(str::to_owned).collect::<Vec<_>>();
    let entries = ["any,0,any", "box,0,any", "imm,0,any", "any,any,any", "any,1,any", "box,1,2"];
    for from in entries {
        for to in entries.into_iter().chain(["any,0,2", "any,0,0", "imm,0,-1"]) {
            let covered = parts(from).iter().zip(parts(to)).all(|(a, b)| *a == b || b == "any");
            let head = format!("return=0\nlabel={from}\n");
            let jump = format!("{head}goto=1\nlabel={to}\nreturn=0");
            let fall = format!("{head}label={to}\nreturn=0");
            let answer = if covered { (0, 0) } else { (11, 9) };
            assert_eq!(glue(&bench("int", &jump)), answer, "{from} {to}");
            assert_eq!(glue(&bench("int", &fall)), answer, "{from} {to}");
        }
    }
}

#[test]
fn ruling_16_stages() {
    assert_eq!(glue("ret=int\ntype=0:\nlocal=value 0 0\nreturn=v9\n"), (4, 4));
    assert_eq!(glue("ret=int\ntype=1:\nlocal=value 0 1\nreturn=val 0 9\n"), (9, 3));
    assert_eq!(glue("ret=int\ntype=1:\nreturn=0\nreturn=val 0 9\n"), (12, 4));
    assert_eq!(glue("ret=int\ntype=1:\nparam=int\n"), (13, 3));
    assert_eq!(glue("ret=int\ntype=1:\nlocal=value 0 1\n"), (9, 3));
    assert_eq!(glue("ret=int\nreturn=0\nlabel=\n"), (13, 3));
    assert_eq!(glue("ret=int\nlabel=\nif=0 1\n"), (13, 3));
}

#[test]
fn rulings_18_to_22_the_store() {
    let none = "ret=int\ntype=inf:\ntype=0:0|0,1\nreturn=0\n";
    assert_eq!(stored(none, "run=1000000\n"), (0, 0));
    for bad in ["2147483648", "-1", "", "01", "1 ", "x"] {
        assert_eq!(stored(none, &format!("run={bad}\n")), (22, 1), "{bad}");
    }
    assert_eq!(stored(none, "run=1\nblock=1 0\n"), (22, 2));
    assert_eq!(stored(none, "run=1\nblock=1 0 \n"), (22, 2));
    assert_eq!(stored(none, "run=1\nrun=1\n"), (22, 2));
    assert_eq!(stored(none, "run=1\nblock=1 0 c1\n"), (22, 2));
    assert_eq!(stored(none, "run=1\narg=c0\n"), (22, 2));
    assert_eq!(stored(none, "run=1\ngoto=0\n"), (22, 2));
    assert_eq!(stored(P, "run=1\narg=b0\nblock=1 0 i0\n"), (22, 3));
    // Too few: after every 22 and 23, before 24 to 27.
    assert_eq!(stored(P, "run=1\nblock=9 0 i0\n"), (22, 3));
    assert_eq!(stored(P, "run=1000001\nblock=9 0\n"), (23, 1));
    // Blocks may name themselves and later ones; 24 is a stage of its own.
    assert_eq!(stored(none, "run=1\nblock=1 1 i0 b1\nblock=1 1 i0 b1\n"), (0, 0));
    assert_eq!(stored(none, "run=1\nblock=1 7 i0\nblock=1 0 b9\n"), (24, 3));
    assert_eq!(stored(none, "run=1\nblock=1 1 i0 b1\nblock=1 7 i0\n"), (25, 3));
    assert_eq!(stored(none, "run=1\nblock=1 1 i0 i0\nblock=1 7 i0\n"), (26, 2));
    assert_eq!(stored(none, "run=1\nblock=1 1 b0\n"), (25, 2));
    assert_eq!(stored(P, "run=0\nblock=9 0 i0\narg=b9\n"), (24, 2));
    assert_eq!(stored(P, "run=0\nblock=1 9 i0\narg=b9\n"), (24, 3));
    assert_eq!(stored(P, "run=0\nblock=1 9 i0\narg=c0\n"), (25, 2));
    assert_eq!(stored(P, "run=0\nblock=1 0 b0\narg=c0\n"), (26, 2));
    assert_eq!(stored(P, "run=0\nblock=1 0 i0\narg=c0\n"), (27, 3));
    assert_eq!(stored("ret=int\n", "run=x\n"), (13, 1));
}

#[test]
fn rulings_23_to_25_programs() {
    assert_eq!(stored("", "run=1\n"), (2, 1));
    assert_eq!(stored("ret=int\nreturn=0 run=1\n", ""), (2, 2));
    assert_eq!(stored("ret=int\nreturn=0\n run=1\n", ""), (2, 3));
    assert_eq!(stored("ret=int\nreturn=0\n", ""), (22, 1));
    let long = format!("ret=int\nreturn=0\nrun=1\n{}", "x".repeat(100_000));
    assert_eq!(ran(&long).verdict, Verdict::new(21, 0));
    let steps = |budget: u32| {
        let outcome = ran(&format!("{P}{}", STORE.replace("10", &budget.to_string())));
        (outcome.state, outcome.steps)
    };
    assert_eq!(steps(0), (State::Running, 0));
    assert_eq!(steps(1), (State::Running, 1));
    assert_eq!(steps(3), (State::Running, 3));
    assert_eq!(steps(4), (State::Done, 4));
    assert_eq!(steps(5), (State::Done, 4));
}

#[test]
fn a_prefix_decides_every_joined_text() {
    for (glue, store) in [(32_768usize, 16_384usize), (32_769, 9), (20, 40_000), (32_768, 16_385)] {
        let mut text = text_of(glue.max(1_000)).into_bytes();
        text.truncate(split(&text).0.len());
        text.extend_from_slice(b"run=1\n");
        text.resize(text.len() - 6 + store, b'x');
        let prefix = &text[..text.len().min(JOINED_BYTES)];
        assert_eq!(run(&text), run(prefix));
    }
}

/// Neither reading nor dropping goes deeper with the text: the thread has room
/// for little.
#[test]
fn deep_nesting_needs_no_stack() {
    let lines = || {
        for word in ["int ", "fetch ", "val 0 "] {
            let nested = word.repeat(32_000 / word.len());
            assert_eq!(glue(&format!("ret=int\nreturn={nested}1\n")), (3, 2));
            assert_eq!(glue(&format!("ret=int\nreturn={nested}\n")), (2, 2));
            assert_eq!(glue(&format!("ret=int\nreturn={nested}1 1\n")), (2, 2));
        }
        for word in ["add 1 ", "step v0 ", "lt -1 "] {
            let nested = word.repeat(32_000 / word.len());
            assert_eq!(glue(&format!("ret=int\nreturn={nested}1\n")), (3, 2));
            assert_eq!(glue(&format!("ret=int\nput=0 1 {nested}\n")), (2, 2));
        }
        let left = format!("{}1{}", "mul ".repeat(5_000), " 1".repeat(5_000));
        assert_eq!(glue(&format!("ret=int\nreturn={left}\n")), (3, 2));
        assert_eq!(glue(&format!("ret=int\nreturn={}\n", "add ".repeat(8_000))), (2, 2));
    };
    let thread = std::thread::Builder::new().stack_size(64 << 10).spawn(lines).unwrap();
    thread.join().unwrap();
}
