//! Texts damaged without an aim: lines, words, numbers, bytes.

use super::rng::Rng;

pub(super) fn lines(text: &str) -> Vec<String> {
    text.lines().map(str::to_owned).collect()
}

pub(super) fn unlines(lines: &[String]) -> String {
    lines.iter().fold(String::new(), |text, line| text + line + "\n")
}

/// Puts another number in place of one that the line holds, if it holds any.
pub(super) fn renumber(rng: &mut Rng, line: &mut String, by: &str) {
    let bytes = line.as_bytes();
    let digit = |at: usize| bytes.get(at).is_some_and(u8::is_ascii_digit);
    let starts = |&at: &usize| digit(at) && (at == 0 || !digit(at - 1));
    if let Some(start) = rng.pick_where(bytes.len(), starts) {
        let end = (start..).find(|&at| !digit(at)).unwrap_or(start);
        line.replace_range(start..end, by);
    }
}

/// Exchanges, doubles or drops a word.
fn reword(rng: &mut Rng, line: &mut String) {
    let mut words: Vec<&str> = line.split(' ').collect();
    let (a, b) = (rng.below(words.len()), rng.below(words.len()));
    match rng.below(4) {
        0 => words.insert(a, words[b]),
        1 if words.len() > 1 => drop(words.remove(a)),
        _ => words.swap(a, b),
    }
    *line = words.join(" ");
}

/// Moves, doubles, drops or changes a line.
pub(super) fn one_line(rng: &mut Rng, lines: &mut Vec<String>) {
    let (a, b) = (rng.below(lines.len()), rng.below(lines.len()));
    match rng.below(10) {
        0 => {
            let line = lines.remove(a);
            lines.insert(b, line);
        }
        1 => lines.swap(a, b),
        2 => lines.insert(b, lines[a].clone()),
        3 if lines.len() > 2 => drop(lines.remove(a)),
        4 | 5 => reword(rng, &mut lines[a]),
        _ => {
            let by = if rng.chance(80) { rng.below(4) as i32 } else { rng.number() };
            renumber(rng, &mut lines[a], &by.to_string());
        }
    }
}

/// Drops, doubles or changes a byte.
fn one_byte(rng: &mut Rng, bytes: &mut Vec<u8>) {
    let at = rng.below(bytes.len());
    match rng.below(4) {
        0 => drop(bytes.remove(at)),
        1 => bytes.insert(at, bytes[at]),
        2 => bytes[at] = rng.next() as u8,
        _ => bytes[at] = rng.pick(b"0123456789 \nv,|:=-abci"),
    }
}

/// One or two lines damaged, and often a byte.
pub(super) fn damaged(rng: &mut Rng, text: &str) -> Vec<u8> {
    let mut lines = lines(text);
    for _ in 0..1 + rng.below(2) {
        one_line(rng, &mut lines);
    }
    let mut bytes = unlines(&lines).into_bytes();
    if rng.chance(40) {
        one_byte(rng, &mut bytes);
    }
    bytes
}
