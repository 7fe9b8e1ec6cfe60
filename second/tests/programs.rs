//! The programs, byte for byte.

use std::io::Write;
use std::process::{Command, Output, Stdio};

const P: &[u8] = b"ret=int\ntype=inf:\ntype=0:0|0,0\nparam=value 1\nifimm=0 v0\niftag=1 v0 1\n\
    label=any,0,any\nreturn=-1\nlabel=box,0,1\nreturn=add int fetch v0 int fetch step v0 1\n\
    run=10\nblock=1 1 i300 i20\narg=b0\n";

const LONG: usize = 100_000_000;

fn output(args: &[&str], input: impl Into<Vec<u8>>) -> Output {
    let mut child = Command::new(env!("CARGO_BIN_EXE_second"))
        .args(args)
        .stdin(Stdio::piped())
        .stdout(Stdio::piped())
        .stderr(Stdio::piped())
        .spawn()
        .unwrap();
    let mut stdin = child.stdin.take().unwrap();
    let input = input.into();
    // The program may stop reading before the input ends.
    let writer = std::thread::spawn(move || drop(stdin.write_all(&input)));
    let output = child.wait_with_output().unwrap();
    writer.join().unwrap();
    output
}

fn second(args: &[&str], input: impl Into<Vec<u8>>) -> String {
    let output = output(args, input);
    assert!(output.status.success() && output.stderr.is_empty(), "{output:?}");
    String::from_utf8(output.stdout).unwrap()
}

fn refused(answer: u32, line: u32) -> String {
    format!("answer={answer}\nline={line}\nstate=none\nsteps=0\nvalue=none\n")
}

/// Texts as `many` reads them, each for the program that is named.
fn file(texts: &[(&str, &[u8])]) -> Vec<u8> {
    let header = |program: &str, text: &[u8]| format!("{program} {}\n", text.len()).into_bytes();
    let part = |&(program, text): &(&str, &[u8])| [header(program, text), text.to_vec()].concat();
    texts.iter().flat_map(part).collect()
}

const DONE: &str = "answer=0\nline=0\nstate=done\nsteps=4\nvalue=c320\n";

#[test]
fn listing() {
    assert_eq!(second(&["run"], P), DONE);
    assert_eq!(second(&["check"], second::split(P).0), "answer=0\nline=0\n");
    assert_eq!(second(&["check"], P), "answer=2\nline=11\n");
    assert_eq!(second(&["check"], ""), "answer=2\nline=1\n");
    assert_eq!(second(&["run"], ""), refused(2, 1));
    assert_eq!(second(&["run"], second::split(P).0), refused(22, 1));
    let running = "answer=0\nline=0\nstate=running\nsteps=3\nvalue=none\n";
    assert_eq!(second(&["run"], String::from_utf8_lossy(P).replace("run=10", "run=3")), running);
}

#[test]
fn long_inputs() {
    assert_eq!(second(&["check"], vec![b'x'; LONG]), "answer=1\nline=0\n");
    assert_eq!(second(&["run"], vec![b'\n'; LONG]), refused(1, 0));
    let mut store = P.to_vec();
    store.resize(LONG, b'\n');
    assert_eq!(second(&["run"], store), refused(21, 0));
}

#[test]
fn many_texts() {
    let long = vec![0; LONG / 10];
    let texts = [P, b"", b"ret=int\n", &long, P];
    let checks = file(&texts.map(|text| ("check", text)));
    let runs = file(&texts.map(|text| ("run", text)));
    let told = |answers: &[(u32, u32)]| -> String {
        answers.iter().map(|(answer, line)| format!("answer={answer}\nline={line}\n")).collect()
    };
    let checked = told(&[(2, 11), (2, 1), (13, 1), (1, 0), (2, 11)]);
    let ran = [DONE, &refused(2, 1), &refused(13, 1), &refused(1, 0), DONE].concat();
    assert_eq!(second(&["many"], checks.clone()), checked);
    assert_eq!(second(&["many"], runs.clone()), ran);
    assert_eq!(second(&["audit"], runs.clone()), ran);
    assert_eq!(second(&["many"], [checks, runs].concat()), checked + &ran);
    assert_eq!(second(&["many"], ""), "");
}

/// What was read rightly is answered; the rest is told, not answered.
#[test]
fn broken_files() {
    let long = "run ".to_owned() + &"9".repeat(30) + "\n";
    let broken = [
        "x\nret=int\n",
        "run 7",
        "run 9\nret=int\n",
        "run -1\n",
        "check +8\nret=int\n",
        "8\nret=int\n",
        "runs 8\nret=int\n",
        &long,
        "\n",
    ];
    for broken in broken {
        let texts = [file(&[("run", P)]), broken.into()].concat();
        let output = output(&["many"], texts);
        assert_eq!(output.stdout, DONE.as_bytes(), "{broken}");
        assert!(!output.status.success() && !output.stderr.is_empty(), "{broken}");
    }
    for words in [&[][..], &["frob"], &["make", "1"], &["make", "x", "1"], &["check", "1"]] {
        let output = output(words, "");
        assert!(!output.status.success() && output.stdout.is_empty(), "{words:?}");
    }
}

#[test]
fn made_texts_are_answered_alike() {
    let texts = second(&["make", "9", "0"], "");
    assert_eq!(texts, "");
    let texts = output(&["make", "9", "500"], "").stdout;
    assert_eq!(texts, output(&["make", "9", "500"], "").stdout);
    let made: Vec<Vec<u8>> = (0..500).map(|at| second::make::text(9, at)).collect();
    let both =
        |text: &'_ Vec<u8>| [("check", second::split(text).0.to_vec()), ("run", text.clone())];
    let pairs: Vec<(&str, Vec<u8>)> = made.iter().flat_map(both).collect();
    let pairs: Vec<(&str, &[u8])> = pairs.iter().map(|(word, text)| (*word, &text[..])).collect();
    assert_eq!(texts, file(&pairs));
    let told = second(&["many"], texts);
    let answers: Vec<&str> = told.lines().filter(|line| line.starts_with("answer=")).collect();
    assert_eq!(answers.len(), 1_000);
    for (answer, (word, text)) in answers.iter().zip(pairs) {
        let given =
            if word == "check" { second::check(text).0 } else { second::run(text).verdict.answer };
        assert_eq!(*answer, format!("answer={given}"));
    }
}
