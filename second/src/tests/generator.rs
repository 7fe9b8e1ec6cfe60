//! What the generator reaches, and what holds of everything it makes.

use crate::audit::Audit;
use crate::machine::{Block, Datum, Machine, Step};
use crate::make::rng::Rng;
use crate::make::{accepted, text, Counts};
use crate::program::{Program, Stmt, Test};
use crate::{check, compile, load, reader, run, run_audited, split, store};
use crate::{Outcome, State, Verdict};

const TEXTS: u64 = 10_000;

#[test]
fn every_answer_is_reached() {
    let mut counts = Counts::default();
    (0..TEXTS).for_each(|at| counts.add(&run(&text(1, at))));
    println!("{TEXTS} texts of seed 1\n{counts}");
    for answer in (0..=13).chain(21..=27) {
        let least = match answer {
            0 => 2_000,
            6..=11 => 100,
            _ => 20,
        };
        assert!(counts.answers[answer] >= least, "answer {answer}\n{counts}");
    }
    assert!(counts.done >= 1_000 && counts.running >= 200, "{counts}");
}

/// What is written to be accepted is, and most stores fit.
#[test]
fn accepted_programs_are_accepted() {
    let mut fit = 0;
    for at in 0..2_000 {
        let (glue, store) = accepted(&mut Rng::new(9, at), 60);
        assert_eq!(check(glue.as_bytes()), (0, 0), "{glue}");
        fit += u32::from(run((glue + &store).as_bytes()).verdict == Verdict::ACCEPTED);
    }
    println!("{fit} of 2000 stores fit");
    assert!(fit >= 1_900);
}

/// Demand 3 holds of every accepted program, at each of its first steps and at
/// its last.
#[test]
fn demand_3_holds() {
    let (mut programs, mut steps) = (0, 0);
    for at in 0..TEXTS {
        let text = text(2, at);
        let outcome = run_audited(&text, 1_000);
        let shown = || String::from_utf8_lossy(&text).into_owned();
        let outcome = outcome.unwrap_or_else(|breach| panic!("{breach}\n{}", shown()));
        assert_eq!(outcome, run(&text));
        if outcome.state != State::None {
            programs += 1;
            steps += u64::from(outcome.steps.min(1_000));
        }
    }
    println!("demand 3: {programs} accepted programs, {steps} steps examined");
    assert!(programs >= 2_000 && steps >= 100_000);
}

/// The assertion above is not an empty one: a state that breaks one part of
/// demand 3 is told.
#[test]
fn breaches_of_demand_3_are_told() {
    let text = "ret=value 1\ntype=inf:\ntype=2:0|0,0\nparam=value 1\nlabel=any,0,any\n\
                label=any,0,any\nreturn=v0\n";
    let program = compile(text.as_bytes()).unwrap();
    let block = |row, tag, cells: &[Datum]| Block { row, tag, cells: cells.to_vec() };
    let good = block(1, 1, &[Datum::Imm(3), Datum::Imm(4)]);
    let machine = |block: &Block, var| Machine::raw(&program, vec![block.clone()], vec![var]);
    let place = Datum::Place(0, 0);
    let audit = Audit::new(&program, &machine(&good, place));
    let breach = |block: &Block, var| audit.state(&machine(block, var)).unwrap_err();

    assert_eq!(audit.state(&machine(&good, place)), Ok(()));
    assert_eq!(audit.state(&machine(&good, Datum::Imm(1))), Ok(()));
    for unfit in [Datum::Int(1), Datum::Imm(2), Datum::Place(0, 1), Datum::Place(1, 0)] {
        assert!(breach(&good, unfit).starts_with("v0 is"), "{unfit:?}");
    }
    for (row, tag, cells) in [(1, 0, 2), (1, 1, 1), (1, 1, 3)] {
        let other = block(row, tag, &[Datum::Imm(3), Datum::Imm(4), Datum::Imm(5)][..cells]);
        assert!(breach(&other, place).contains("lost its shape"));
    }
    let other = block(0, 1, &[Datum::Imm(3), Datum::Imm(4)]);
    assert!(breach(&other, Datum::Imm(0)).contains("lost its shape"));
    let other = block(1, 1, &[Datum::Imm(3), place]);
    assert!(breach(&other, place).starts_with("Block"));

    // The same program but for its `ret`, which the value does not fit.
    let narrow =
        text.replace("value 1\ntype", "value 0\ntype").replace("return=v0", "return=val 0 1");
    let narrow = compile(narrow.as_bytes()).unwrap();
    let mut returned = machine(&good, place);
    returned.run(3);
    assert_eq!(audit.state(&returned), Ok(()));
    let breach = Audit::new(&narrow, &returned).state(&returned).unwrap_err();
    assert!(breach.ends_with("is returned"), "{breach}");
}

/// Nor is it empty that accepted programs are never stuck: among those that
/// typing refuses, many are.
#[test]
fn refused_programs_get_stuck() {
    let mut stuck = 0;
    for at in 0..TEXTS {
        let text = text(4, at);
        let (glue, rest) = split(&text);
        let Ok(program) = reader::read(glue) else { continue };
        let Ok(store) = store::read(&program, rest) else { continue };
        let mut machine = Machine::new(&program, store);
        machine.run(100);
        let is_stuck = machine.step() == Step::Stuck;
        assert!(!is_stuck || compile(glue).is_err());
        stuck += u32::from(is_stuck);
    }
    println!("{stuck} refused programs got stuck");
    assert!(stuck >= 100);
}

/// What is read has one spelling, so that writing it gives the text again.
#[test]
fn texts_are_read_whole() {
    for at in 0..TEXTS {
        let text = text(5, at);
        let (glue, rest) = split(&text);
        let Ok(program) = reader::read(glue) else { continue };
        assert_eq!(program.to_string().as_bytes(), glue);
        if let Ok(store) = store::read(&program, rest) {
            assert_eq!(store.to_string().as_bytes(), rest);
        }
    }
}

#[test]
fn seeds_decide_the_texts() {
    for at in 0..500 {
        assert_eq!(text(7, at), text(7, at));
    }
    assert_ne!(text(7, 1), text(8, 1));
}

/// Budgets of 0 and 1, at the return, and one less.
#[test]
fn budgets_are_at_their_edges() {
    let mut seen = [0u32; 4];
    for at in 0..TEXTS {
        let text = text(6, at);
        let Ok((program, store)) = load(&text) else { continue };
        let budget = store.budget;
        let mut machine = Machine::new(&program, store);
        machine.run(budget.min(10_000) + 1);
        let needed = machine.value().map(|_| machine.steps());
        seen[0] += u32::from(budget == 0);
        seen[1] += u32::from(budget == 1);
        seen[2] += u32::from(needed == Some(budget));
        seen[3] += u32::from(needed == Some(budget + 1));
    }
    println!("budgets of 0, of 1, at the return, one less: {seen:?}");
    assert!(seen.iter().all(|&times| times >= 100), "{seen:?}");
}

fn names_itself(program: &Program, row: u32, through: u32, depth: u32) -> bool {
    program
        .rows
        .products(through)
        .flatten()
        .any(|&field| field == row || (depth > 0 && names_itself(program, row, field, depth - 1)))
}

#[test]
fn rows_are_recursive() {
    let mut seen = 0;
    for at in 0..2_000 {
        let Ok((program, store)) = load(&text(8, at)) else { continue };
        let looped =
            store.blocks.iter().any(|block| names_itself(&program, block.row, block.row, 2));
        seen += u32::from(looped);
    }
    println!("{seen} stores with a block of a recursive row");
    assert!(seen >= 50);
}

/// The form of a body line, and for a test whether it jumped.
fn form(stmt: &Stmt, jumped: bool) -> usize {
    let jumped = usize::from(jumped);
    match stmt {
        Stmt::Set(..) => 0,
        Stmt::Put(..) => 1,
        Stmt::Goto(_) => 2,
        Stmt::Label(_) => 3,
        Stmt::Return(_) => 4,
        Stmt::If(..) => 5 + jumped,
        Stmt::Test(_, _, Test::Imm) => 7 + jumped,
        Stmt::Test(_, _, Test::Tag(_)) => 9 + jumped,
        Stmt::Test(_, _, Test::Int(_)) => 11 + jumped,
    }
}

/// Every form of line is executed, and every test both jumps and falls.
#[test]
fn every_form_is_executed() {
    let mut seen = [0u32; 13];
    for at in 0..4_000 {
        let Ok((program, store)) = load(&text(3, at)) else { continue };
        let budget = store.budget.min(60);
        let mut machine = Machine::new(&program, store);
        while machine.steps() < budget && machine.value().is_none() {
            let before = machine.at();
            assert_ne!(machine.step(), Step::Stuck);
            seen[form(&program.body[before], machine.at() != before + 1)] += 1;
        }
    }
    println!("lines executed: {seen:?}");
    assert!(seen.iter().all(|&times| times >= 20), "{seen:?}");
}

#[test]
fn any_bytes_are_answered() {
    let pool = b"ret=int\ntype=0:|,vadd 1-\nlabel=any,";
    let mut state = 1u64;
    let mut next = |n: usize| {
        state = state.wrapping_mul(6_364_136_223_846_793_005).wrapping_add(1);
        (state >> 40) as usize % n
    };
    for round in 0..20_000 {
        let any_byte = round % 2 == 0;
        let length = next(90);
        let mut byte = || if any_byte { next(256) as u8 } else { pool[next(pool.len())] };
        let text: Vec<u8> = (0..length).map(|_| byte()).collect();
        let Outcome { verdict, .. } = run(&text);
        assert!((0..=13).contains(&verdict.answer) || (21..=27).contains(&verdict.answer));
        let started = [b"ret=int\nlocal=int 1\nlabel=any,0,any\n", &text[..], b"\n"].concat();
        assert!(run(&started).verdict.answer <= 27);
    }
}
