//! Points as the leaves take them, n times n doubles row by row.
use crate::random::Random;
use openquant::onc_leaf::open::{self, DMatrix};

#[derive(Clone, Copy, Debug, PartialEq, Eq, PartialOrd, Ord)]
pub enum Book {
    Random,
    Distances,
    Block,
    ExactBlock,
    SmallWhole,
    RepeatedRows,
    AllEqual,
    Zero,
    SignedZeros,
    NanCells,
    NanRows,
    AllNan,
    Infinite,
    Asymmetric,
    Huge,
    Tiny,
    AnyBits,
    AnyMix,
}

pub const BOOKS: [Book; 18] = [
    Book::Random,
    Book::Distances,
    Book::Block,
    Book::ExactBlock,
    Book::SmallWhole,
    Book::RepeatedRows,
    Book::AllEqual,
    Book::Zero,
    Book::SignedZeros,
    Book::NanCells,
    Book::NanRows,
    Book::AllNan,
    Book::Infinite,
    Book::Asymmetric,
    Book::Huge,
    Book::Tiny,
    Book::AnyBits,
    Book::AnyMix,
];

const ODD: [f64; 14] = [
    0.0,
    -0.0,
    1.0,
    -1.0,
    f64::NAN,
    f64::INFINITY,
    f64::NEG_INFINITY,
    f64::MAX,
    f64::MIN,
    f64::MIN_POSITIVE,
    5e-324,
    1e154,
    1.4e154,
    1e-162,
];

/// A matrix of the Rust, which goes column by column, from rows.
pub fn matrix(cells: &[f64], n: usize) -> DMatrix<f64> {
    DMatrix::from_fn(n, n, |i, j| cells[i * n + j])
}

/// The Rust's distances of a book of correlations, row by row.
pub fn distances(correlations: &[f64], n: usize) -> Vec<f64> {
    let d = open::corr_to_distance(&matrix(correlations, n));
    (0..n * n).map(|c| d[(c / n, c % n)]).collect()
}

/// Correlations: 1 on the diagonal, 0.6 within a block and 0.1 across, each pair with its noise.
pub fn block_correlations(r: &mut Random, n: usize, blocks: usize, noise: f64) -> Vec<f64> {
    let mut cells = vec![1.0; n * n];
    for i in 0..n {
        for j in 0..i {
            let level = if i * blocks / n == j * blocks / n { 0.6 } else { 0.1 };
            let c = level + noise * (2.0 * r.unit() - 1.0);
            cells[i * n + j] = c;
            cells[j * n + i] = c;
        }
    }
    cells
}

/// Correlations drawn from -1..1: 1 on the diagonal, each cell its mirror.
pub fn random_correlations(r: &mut Random, n: usize) -> Vec<f64> {
    let mut cells = vec![1.0; n * n];
    for i in 0..n {
        for j in 0..i {
            let c = 2.0 * r.unit() - 1.0;
            cells[i * n + j] = c;
            cells[j * n + i] = c;
        }
    }
    cells
}

fn unit_cells(r: &mut Random, n: usize) -> Vec<f64> {
    (0..n * n).map(|_| r.unit()).collect()
}

fn scaled(r: &mut Random, n: usize, exponent: i32) -> Vec<f64> {
    (0..n * n)
        .map(|_| (2.0 * r.unit() - 1.0) * 2f64.powi(exponent + r.below(12) as i32))
        .collect()
}

impl Book {
    pub fn points(self, r: &mut Random, n: usize) -> Vec<f64> {
        match self {
            Book::Random => unit_cells(r, n),
            Book::Distances => distances(&random_correlations(r, n), n),
            Book::Block => {
                let blocks = r.from(1, n);
                distances(&block_correlations(r, n, blocks, 0.2), n)
            }
            Book::ExactBlock => {
                let blocks = r.from(1, n);
                distances(&block_correlations(r, n, blocks, 0.0), n)
            }
            Book::SmallWhole => (0..n * n).map(|_| r.below(3) as f64).collect(),
            Book::RepeatedRows => {
                let rows = unit_cells(r, n);
                let kinds = r.from(1, n);
                (0..n)
                    .flat_map(|_| {
                        let k = r.below(kinds);
                        rows[k * n..k * n + n].to_vec()
                    })
                    .collect()
            }
            Book::AllEqual => {
                let value = r.one_of(&[0.1, 1.0, 0.45f64.sqrt(), 1e300, 5e-324, f64::INFINITY]);
                vec![value; n * n]
            }
            Book::Zero => vec![0.0; n * n],
            Book::SignedZeros => (0..n * n).map(|_| r.one_of(&[0.0, -0.0])).collect(),
            Book::NanCells => (0..n * n)
                .map(|_| if r.once_in(n + 1) { f64::NAN } else { r.unit() })
                .collect(),
            Book::NanRows => {
                let mut cells = unit_cells(r, n);
                for i in 0..n {
                    if r.once_in(3) {
                        cells[i * n..i * n + n].fill(f64::NAN);
                    }
                }
                cells
            }
            Book::AllNan => vec![f64::NAN; n * n],
            Book::Infinite => (0..n * n)
                .map(|_| {
                    if r.once_in(n + 1) {
                        r.one_of(&[f64::INFINITY, f64::NEG_INFINITY])
                    } else {
                        r.unit()
                    }
                })
                .collect(),
            Book::Asymmetric => (0..n * n).map(|_| 20.0 * r.unit() - 10.0).collect(),
            Book::Huge => {
                let e = r.one_of(&[400, 505, 508, 511, 1000]);
                scaled(r, n, e)
            }
            Book::Tiny => {
                let e = r.one_of(&[-1074, -1060, -545, -540, -530]);
                scaled(r, n, e)
            }
            Book::AnyBits => (0..n * n).map(|_| f64::from_bits(r.bits())).collect(),
            Book::AnyMix => (0..n * n)
                .map(|_| if r.once_in(2) { r.one_of(&ODD) } else { r.unit() })
                .collect(),
        }
    }
}
