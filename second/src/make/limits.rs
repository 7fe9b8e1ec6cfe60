//! Every limit exactly met, and passed by one.

use super::rng::Rng;

pub struct Limit {
    pub name: &'static str,
    /// The answer when it is passed by one.
    pub answer: u32,
    /// A joined text that meets the limit with 0 more, and passes it with 1.
    pub text: fn(more: usize) -> String,
}

const fn limit(name: &'static str, answer: u32, text: fn(usize) -> String) -> Limit {
    Limit { name, answer, text }
}

pub const LIMITS: [Limit; 15] = [
    limit("glue bytes", 1, |more| text_of(32_768 + more)),
    limit("rows", 3, |more| returning(&"type=0:\n".repeat(64 + more), "run=1\n")),
    limit("products", 3, |more| returning(&row("|0".repeat(15 + more)), "run=1\n")),
    limit("fields of a product", 3, |more| returning(&row(",0".repeat(15 + more)), "run=1\n")),
    limit("fields", 3, fields),
    limit("variables", 3, |more| returning(&"local=int 1\n".repeat(32 + more), "run=1\n")),
    limit("labels", 3, |more| returning(&"label=\n".repeat(64 + more), "run=100\n")),
    limit("body lines", 3, |more| returning(&counting("add v0 1", 511 + more), "run=600\n")),
    limit("nodes", 3, nodes),
    limit("depth to the right", 3, |more| format!("ret=int\nreturn={}\nrun=1\n", deep(16 + more))),
    limit("depth to the left", 3, depth_to_the_left),
    limit("store bytes", 21, store_bytes),
    limit("blocks", 23, |more| {
        let store = format!("run=1\n{}", "block=1 0 i1\n".repeat(256 + more));
        returning("type=inf:\ntype=0:0\n", &store)
    }),
    limit("cells", 23, cells),
    limit("budget", 23, |more| returning("", &format!("run={}\n", 1_000_000 + more))),
];

/// A program that returns 0 after these lines, and a store.
fn returning(lines: &str, store: &str) -> String {
    format!("ret=int\n{lines}return=0\n{store}")
}

/// A row with one field, and more.
fn row(more: String) -> String {
    format!("type=1:0{more}\n")
}

/// A local, set so many times.
fn counting(e: &str, times: usize) -> String {
    format!("local=int 1\n{}", format!("set=v0 {e}\n").repeat(times))
}

/// An expression of this depth; a lone number has depth 1.
fn deep(depth: usize) -> String {
    "add 1 ".repeat(depth - 1) + "1"
}

fn fields(more: usize) -> String {
    let others = format!("|0{}", ",0".repeat(15)).repeat(15);
    let full = row(",0".repeat(15) + &others);
    returning(&(full.repeat(4) + &row(String::new()).repeat(more)), "run=1\n")
}

fn nodes(more: usize) -> String {
    // Nine nodes in each line, and one in the `return`.
    let nines = counting("add 1 add 1 add 1 add 1 1", 455);
    returning(&(nines + &"set=v0 1\n".repeat(more)), "run=600\n")
}

fn depth_to_the_left(more: usize) -> String {
    let steps = 15 + more;
    let address = format!("{}v0{}", "step ".repeat(steps), " 0".repeat(steps));
    let lines = format!("type=1:\ntype=0:0\nparam=value 1\nput={address} 0 val 0 0\n");
    returning(&lines, "run=5\nblock=1 0 i0\narg=b0\n")
}

fn store_bytes(more: usize) -> String {
    // A block has 26 bytes beside its digits, which eight cells share.
    let block = |digits: usize| {
        let cell = |at: usize| format!(" i{}", "1".repeat((digits + at) / 8));
        format!("block=1 0{}\n", (0..8).map(cell).collect::<String>())
    };
    let store = format!("run=1\n{}{}", block(80).repeat(154), block(28 + more));
    returning(&format!("type=inf:\ntype=0:0{}\n", ",0".repeat(7)), &store)
}

fn cells(more: usize) -> String {
    let row = format!("type=inf:\ntype=0:0{}|0\n", ",0".repeat(15));
    let full = format!("block=1 0{}\n", " i7".repeat(16)).repeat(128);
    returning(&row, &format!("run=1\n{full}{}", "block=1 1 i7\n".repeat(more)))
}

const HEADER: &str = "ret=int\ntype=inf:\ntype=0:0|0,0\ntype=2:\ntype=0:0,0\n\
    param=value 1\nparam=value 3\nparam=int\nlocal=int 5\nlocal=int 7\nlocal=int 8\n\
    local=value 2 1\nlocal=value 0 -5\nifimm=0 v0\n";
const LABEL: &str = "label=any,0,any any,0,any any,0,any any,0,any any,0,any any,0,any any,0,any \
    any,0,any\n";
const ROUND: [&str; 9] = [
    "set=v2 add mul v3 1234567890 sub -1999999999 add -1000000000 v2\n",
    "put=v1 1 val 0 add mul v2 -2147483648 sub -1987654321 -1111111111\n",
    "set=v4 eq -1234567890 sub -1234567890 lt -1234567890 -1987654321\n",
    "set=v3 add int fetch step v1 1 mul -1234567890 sub -1000000001 -2000000002\n",
    "set=v5 sub -1234567890 mul -1234567890 add -1234567890 -198765432\n",
    "if=0 lt add v3 -1234567891 mul -1234567892 -1234567893\n",
    "set=v4 lt -1234567890 sub -1234567890 eq -1234567890 -1987654321\n",
    "set=v5 mul -1234567890 sub -1234567890 sub -1234567890 -19876543\n",
    LABEL,
];

/// A joined text, accepted, whose glue has exactly so many bytes, from 1,000.
pub fn text_of(bytes: usize) -> String {
    let mut text = HEADER.to_owned();
    let end = format!("{LABEL}return=v3\n");
    for line in ROUND.iter().cycle() {
        if text.len() + end.len() + 200 >= bytes {
            break;
        }
        text += line;
    }
    // Lines that take up the rest to the byte; 8 bytes are not expression.
    let mut left = bytes.saturating_sub(text.len() + end.len());
    while left > 8 {
        let line = if left > 100 { 50 } else { left.div_ceil(left / 50 + 1) };
        let adds = (line - 9) / 6;
        let number = "1".repeat(line - 8 - 6 * adds);
        text += &format!("set=v2 {}{number}\n", "add 1 ".repeat(adds));
        left -= line;
    }
    text + &end + "run=5000\nblock=1 1 i4 i5\nblock=3 0 i6 i7\narg=b0\narg=b1\narg=c5\n"
}

/// A limit met or passed, or something near one: passed by far, or on a line
/// that has a fault of shape too.
pub(super) fn some(rng: &mut Rng) -> String {
    let (more, which) = (rng.below(2), rng.below(LIMITS.len() + 9));
    match which.checked_sub(LIMITS.len()) {
        None => (LIMITS[which].text)(more),
        Some(0) => {
            let end = rng.pick(&["1", "1 1", "", "v0"]);
            format!("ret=int\nreturn={}{end}\n", "int ".repeat(3_000 + rng.below(5_000)))
        }
        Some(1) => returning(&format!("type=0:0{}|\n", "|0".repeat(15 + more)), "run=1\n"),
        Some(2) => {
            let last = ["local=int 01\n", "local=int 2\n"][more];
            returning(&("local=int 1\n".repeat(32) + last), "run=1\n")
        }
        Some(3) => {
            let last = ["label=\n", "labels=\n"][more];
            returning(&("label=\n".repeat(64) + last), "run=1\n")
        }
        Some(4) => returning(&format!("return={}{}\n", deep(17), [" 1", ""][more]), "run=1\n"),
        Some(5) => returning(&format!("return={}\nreturn=01\n", deep(16 + more)), "run=1\n"),
        Some(6) => text_of(32_768 + more * (1 + rng.below(50))),
        Some(7) => {
            (0..32_769 + rng.below(20_000)).map(|_| rng.pick(b"set=v0 1\n") as char).collect()
        }
        Some(_) => "x".repeat(32_767 + more) + "\nrun=1\n",
    }
}
