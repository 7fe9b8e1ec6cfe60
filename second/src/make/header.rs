//! What stands above the body: rows and variables.

use super::rng::Rng;
use crate::program::{Decl, Kind, Rows};

/// A row before all are there: PSI and products.
type Plan = (Option<u32>, Vec<Vec<u32>>);

fn plan(rng: &mut Rng, rows: usize) -> Plan {
    let psi = match rng.below(20) {
        0..=5 => None,
        6..=13 => Some(0),
        14 => Some(i32::MAX as u32),
        _ => Some(1 + rng.below(4) as u32),
    };
    let products = rng.pick(&[0, 0, 0, 1, 1, 1, 1, 3, 2, 2]);
    let mut product = || {
        let fields = if rng.chance(5) { 4 + rng.below(13) } else { 1 + rng.below(3) };
        (0..fields).map(|_| rng.below(rows) as u32).collect()
    };
    (psi, (0..products).map(|_| product()).collect())
}

/// One to six rows, which may name each other and themselves; often the bench
/// rows come first. A row without products gets constants for the most part:
/// then every row has data, if need be in a loop of blocks.
pub(super) fn rows(rng: &mut Rng) -> Rows {
    let count = 1 + rng.below(6);
    let mut bench = [
        (None, vec![]),
        (Some(0), vec![vec![0], vec![0, 0]]),
        (Some(2), vec![]),
        (Some(0), vec![vec![0, 0]]),
    ]
    .into_iter();
    let like_bench = rng.chance(60);
    let mut rows = Rows::default();
    for _ in 0..count {
        let (mut psi, products) =
            bench.next().filter(|_| like_bench).unwrap_or_else(|| plan(rng, count));
        if products.is_empty() && psi == Some(0) && rng.chance(98) {
            psi = Some(2);
        }
        rows.push_row(psi);
        for product in products {
            rows.push_product(product.into_iter().map(Some));
        }
    }
    rows
}

/// A number that suits the row.
pub(super) fn immediate(rng: &mut Rng, rows: &Rows, row: u32) -> Option<i32> {
    match rows.psi(row) {
        None => Some(rng.number()),
        Some(0) => None,
        Some(psi) => Some(rng.below(psi.min(5) as usize) as i32),
    }
}

pub(super) fn kind(rng: &mut Rng, rows: &Rows, ints: usize) -> Kind {
    if rng.chance(ints) {
        Kind::Int
    } else {
        Kind::Value(rng.below(rows.len()) as u32)
    }
}

pub(super) fn vars(rng: &mut Rng, rows: &Rows) -> Vec<Decl> {
    let count = rng.below(7);
    let mut var = |_| {
        let kind = kind(rng, rows, 30);
        let start = match kind {
            _ if rng.chance(60) => None,
            Kind::Int => Some(rng.number()),
            Kind::Value(row) => immediate(rng, rows, row),
        };
        Decl { kind, start }
    };
    (0..count).map(&mut var).collect()
}
