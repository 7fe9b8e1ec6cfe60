//! The proved library against the second program: the same texts, both in one process, rounds of both by turns.
//! `bench` prints the tables; `bench runs` that of runs alone; `bench proved FILE ROUNDS` and `bench second FILE ROUNDS` do one side's work alone, for a profile.

use std::hint::black_box;
use std::time::{Duration, Instant};

extern "C" {
    fn tapmallet_check(text: *const u8, length: usize, line: &mut u64) -> u32;
    fn tapmallet_run(text: *const u8, length: usize, out: &mut [u8; 128]) -> usize;
}

/// The proved checker's number and line.
fn proved(text: &[u8]) -> (u32, u32) {
    let mut line = 0;
    // SAFETY: the pointer and the length are those of one slice, and `line` is lent for the call.
    let answer = unsafe { tapmallet_check(text.as_ptr(), text.len(), &mut line) };
    (answer, line as u32)
}

/// The second program's number and line.
fn second(text: &[u8]) -> (u32, u32) {
    second::check(text)
}

/// How many steps the proved machine takes on a joined text, as it prints them.
fn proved_steps(joined: &[u8]) -> u32 {
    let mut out = [0; 128];
    // SAFETY: the pointer and the length are those of one slice, and `out` is lent for the call.
    let n = unsafe { tapmallet_run(joined.as_ptr(), joined.len(), &mut out) };
    let text = std::str::from_utf8(&out[..n]).expect("plain text");
    let steps = text.lines().find_map(|line| line.strip_prefix("steps="));
    steps.expect("a line with the steps").parse().expect("a number")
}

/// The second program's.
fn second_steps(joined: &[u8]) -> u32 {
    second::run(joined).steps
}

type Checker = fn(&[u8]) -> (u32, u32);

fn time(check: Checker, texts: &[Vec<u8>], rounds: usize) -> Duration {
    let start = Instant::now();
    for _ in 0..rounds {
        for text in texts {
            black_box(check(black_box(text)));
        }
    }
    start.elapsed()
}

/// Least time of one round over all texts, in microseconds, of either side. The rounds of both alternate, so that a busy machine slows both.
fn compare(texts: &[Vec<u8>], rounds: usize) -> (f64, f64) {
    let mut least = (Duration::MAX, Duration::MAX);
    for _ in 0..40 {
        least.0 = least.0.min(time(proved, texts, rounds));
        least.1 = least.1.min(time(second, texts, rounds));
    }
    let of = |d: Duration| d.as_secs_f64() * 1e6 / rounds as f64;
    (of(least.0), of(least.1))
}

fn glue(bytes: usize) -> Vec<u8> {
    let joined = second::make::text_of(bytes).into_bytes();
    second::split(&joined).0.to_vec()
}

/// Texts of the generator of at most so many bytes, whatever their answers.
fn small(count: usize, most: usize) -> Vec<Vec<u8>> {
    let texts = (0..).map(|at| second::split(&second::make::text(7, at)).0.to_vec());
    texts.filter(|text| !text.is_empty() && text.len() <= most).take(count).collect()
}

fn agree(texts: &[Vec<u8>]) {
    for text in texts {
        assert_eq!(proved(text), second(text));
    }
}

fn table() {
    println!("texts                       bytes   proved µs   second µs   second / proved");
    let row = |name: &str, texts: &[Vec<u8>], rounds: usize| {
        agree(texts);
        let (p, s) = compare(texts, rounds);
        let bytes: usize = texts.iter().map(Vec::len).sum();
        println!("{name:<25} {bytes:>7} {p:>11.1} {s:>11.1} {:>17.2}", s / p);
        p
    };
    let quarter = row("accepted, 7.5 KB", &[glue(7_500)], 60);
    let half = row("accepted, 15 KB", &[glue(15_000)], 30);
    let whole = row("accepted, 30 KB", &[glue(30_000)], 15);
    let texts = small(1_000, 400);
    let many = row("1,000 small texts", &texts, 1);
    let empty = row("an empty text", &[Vec::new()], 1_000);
    println!(
        "time at twice the bytes: {:.2} (7.5 to 15 KB), {:.2} (15 to 30 KB)",
        half / quarter,
        whole / half
    );
    // The tables are cleared when they are made, and again on a refusal. The empty text is refused, and costs nothing else.
    let refused = texts.iter().filter(|text| proved(text).0 != 0).count();
    println!(
        "clearing: {:.0} % of the small texts' time ({} accepted, cleared once; {refused} refused, cleared twice, as the empty text is)",
        100.0 * (texts.len() + refused) as f64 * empty / 2.0 / many,
        texts.len() - refused
    );
}

/// A sum that wraps, counted up for ever.
const ARITHMETIC: &str = "ret=int\nlocal=int 0\nlocal=int 1\nlabel=any,0,any any,0,any\n\
    set=v1 add mul v1 1103515245 12345\nset=v0 add v0 1\nif=0 lt v0 1000000000\nreturn=v1\nrun=1000000\n";

/// A walk along a list, tag test and all.
const WALK: &str = "ret=int\ntype=inf:\ntype=1:0,1\nparam=value 1\nlabel=any,0,any\nifimm=1 v0\niftag=2 v0 0\n\
    label=any,0,any\nreturn=0\nlabel=box,0,0\nset=v0 fetch step v0 1\ngoto=0\nrun=1000000\n";

/// A field written, and written again.
const PUT: &str = "ret=int\ntype=inf:\ntype=0:0,0\nparam=value 1\nlocal=int 0\nlabel=any,0,any any,0,any\n\
    put=v0 1 val 0 v1\nset=v1 add v1 1\ngoto=0\nrun=1000000\n";

/// A list of so many blocks whose last one leads to the first again.
fn ring(blocks: usize) -> String {
    let block = |k: usize| format!("block=1 0 i7 b{}\n", (k + 1) % blocks);
    format!("{WALK}{}arg=b0\n", (0..blocks).map(block).collect::<String>())
}

/// `PUT` on the last of so many blocks.
fn put_among(blocks: usize) -> String {
    format!("{PUT}{}arg=b{}\n", "block=1 0 i1 i2\n".repeat(blocks), blocks - 1)
}

/// Least time of a run of either side, in nanoseconds a step.
fn compare_runs(joined: &str) -> (f64, f64) {
    let of = |run: fn(&[u8]) -> u32| {
        let start = Instant::now();
        let steps = black_box(run(black_box(joined.as_bytes())));
        assert_eq!(steps, 1_000_000);
        start.elapsed().as_secs_f64() * 1e3
    };
    let mut least = (f64::MAX, f64::MAX);
    for _ in 0..15 {
        least.0 = least.0.min(of(proved_steps));
        least.1 = least.1.min(of(second_steps));
    }
    least
}

fn runs() {
    println!("1,000,000 steps           proved ns a step   second ns a step   second / proved");
    let row = |name: &str, joined: &str| {
        let (p, s) = compare_runs(joined);
        println!("{name:<25} {p:>16.1} {s:>18.1} {:>17.2}", s / p);
        p
    };
    row("arithmetic", ARITHMETIC);
    row("list walk", &ring(16));
    let one = row("put, 1 block", &put_among(1));
    let all = row("put, 256 blocks", &put_among(256));
    println!("a step among 256 blocks: {:.2} of one with 1 block", all / one);
}

fn alone(check: Checker, file: &str, rounds: &str) {
    let text = std::fs::read(file).expect("the text is read");
    time(check, &[text], rounds.parse().expect("a number of rounds"));
}

fn main() {
    let words: Vec<String> = std::env::args().skip(1).collect();
    let words: Vec<&str> = words.iter().map(String::as_str).collect();
    match words[..] {
        [] => {
            table();
            runs();
        }
        ["runs"] => runs(),
        ["proved", file, rounds] => alone(proved, file, rounds),
        ["second", file, rounds] => alone(second, file, rounds),
        ["text", bytes] => {
            print!("{}", String::from_utf8_lossy(&glue(bytes.parse().expect("a number of bytes"))))
        }
        _ => eprintln!(
            "bench | bench proved FILE ROUNDS | bench second FILE ROUNDS | bench text BYTES"
        ),
    }
}
