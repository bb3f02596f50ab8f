//! Books of correlations, n times n doubles row by row.
use kmeans_harness::books::{block_correlations, random_correlations, BOOKS};
use kmeans_harness::random::Random;

/// Three pairs or more: 0.875 within a pair, 0.0546875 across, 0.21875 between the second members. Its weak groups are clustered again and again.
pub fn pairs(pairs: usize) -> Vec<f64> {
    let n = 2 * pairs;
    let cell = |i: usize, j: usize| match (i == j, i / 2 == j / 2, i % 2 == 1 && j % 2 == 1) {
        (true, _, _) => 1.0,
        (_, true, _) => 0.875,
        (_, _, true) => 0.21875,
        _ => 0.0546875,
    };
    (0..n * n).map(|c| cell(c / n, c % n)).collect()
}

/// The kinds of books that `of_kind` makes.
pub const KINDS: usize = BOOKS.len() + 4;

/// A book of n names: random, in blocks, of four values, in pairs, or one of those made for the leaves.
pub fn of_kind(r: &mut Random, kind: usize, n: usize) -> Vec<f64> {
    match kind {
        0 => random_correlations(r, n),
        1 => {
            let blocks = r.from(1, n);
            let noise = r.one_of(&[0.0, 0.01, 0.2, 0.4]);
            block_correlations(r, n, blocks, noise)
        }
        2 => (0..n * n).map(|_| r.one_of(&[1.0, 0.5, 0.0, -0.5])).collect(),
        3 if n % 2 == 0 => pairs(n / 2),
        3 => random_correlations(r, n),
        _ => BOOKS[kind - 4].points(r, n),
    }
}

/// A kind of `of_kind`, correlations in blocks more often than others.
fn any_kind(r: &mut Random, n: usize) -> usize {
    match r.below(8) {
        0 => 0,
        1 | 2 => 1,
        3 => 2,
        4 if n % 2 == 0 => 3,
        _ => 4 + r.below(BOOKS.len()),
    }
}

/// A book of any kind of `of_kind`.
pub fn made_up(r: &mut Random, n: usize) -> Vec<f64> {
    let kind = any_kind(r, n);
    of_kind(r, kind, n)
}

/// Cells by row and column, 1 on the diagonal, each its mirror.
fn mirrored(n: usize, mut cell: impl FnMut(usize, usize) -> f64) -> Vec<f64> {
    let mut cells = vec![1.0; n * n];
    for i in 0..n {
        for j in 0..i {
            cells[i * n + j] = cell(i, j);
            cells[j * n + i] = cells[i * n + j];
        }
    }
    cells
}

/// Books that `of_kind` does not make, each with its name: beyond the limits of a correlation, at them, nearly tied, tied, and such that
/// groups are clustered again.
fn adverse(r: &mut Random, n: usize) -> (&'static str, Vec<f64>) {
    let blocks = r.from(1, n);
    let same = |i: usize, j: usize, blocks: usize| i * blocks / n == j * blocks / n;
    match r.below(7) {
        0 => ("beyond -1 and 1", mirrored(n, |_, _| 6.0 * r.unit() - 3.0)),
        1 => {
            let ends = [1.0, 1f64.next_up(), 1f64.next_down(), -1.0, (-1f64).next_up(), (-1f64).next_down(), 0.0];
            ("at -1 and 1", (0..n * n).map(|_| r.one_of(&ends)).collect())
        }
        2 => ("a rounding apart", mirrored(n, |_, _| 0.5 + r.below(3) as f64 * 2f64.powi(-53))),
        3 => ("blocks a rounding apart", mirrored(n, |i, j| if same(i, j, blocks) { 0.75 } else { 0.25 } + r.below(2) as f64 * 2f64.powi(-53))),
        4 => ("blocks in blocks", mirrored(n, |i, j| 0.1 + 0.4 * f64::from(same(i, j, blocks.div_ceil(3))) + 0.4 * f64::from(same(i, j, blocks)))),
        5 => {
            let levels: Vec<f64> = (0..n).map(|_| r.unit()).collect();
            ("blocks of unlike strength", mirrored(n, |i, j| if same(i, j, blocks) { levels[i * blocks / n] } else { 0.1 * r.unit() }))
        }
        _ => {
            let cells = mirrored(n, |_, _| 2.0 * r.unit() - 1.0);
            let other: Vec<usize> = (0..n).map(|_| r.below(n)).collect();
            ("names twice", (0..n * n).map(|c| cells[other[c / n] * n + other[c % n]]).collect())
        }
    }
}

/// A book of any kind, with the kind's name.
pub fn named(r: &mut Random, n: usize) -> (String, Vec<f64>) {
    if r.once_in(4) {
        let (name, cells) = adverse(r, n);
        return (name.into(), cells);
    }
    let kind = any_kind(r, n);
    let name = match kind {
        0 => "random".into(),
        1 => "blocks".into(),
        2 => "four values".into(),
        3 => "pairs".into(),
        _ => format!("points {:?}", BOOKS[kind - 4]),
    };
    (name, of_kind(r, kind, n))
}
