//! A call of the grouping, and what it must answer: refusals by the table, the rest by the unchanged Rust.
use kmeans_harness::books::matrix;
use kmeans_harness::leaf::{floats_for, numbers_for};
use openquant::onc::{get_onc_clusters, get_onc_clusters_with_seed, OncError, OncResult};
use openquant::onc_leaf::open::DMatrix;
use rand::{install, Control, Signal, Source};
use std::panic::{catch_unwind, AssertUnwindSafe};

/// Where a call takes its draws: from its list, from the generator of a seed, or from that of the seed 42, which `get_onc_clusters` does not name.
#[derive(Clone, Copy, PartialEq, Eq)]
pub enum By {
    Draws,
    Seed(u64),
    DefaultSeed,
}

/// A call: a book, its sizes, repeats and draws, and the lengths of the lists that are lent: order, sizes, scores, ordered, floats, numbers, answer.
/// A call by a seed has no draws.
#[derive(Clone)]
pub struct Call {
    pub book: Vec<f64>,
    pub rows: usize,
    pub cols: usize,
    pub repeat: usize,
    pub draws: Vec<u64>,
    pub by: By,
    pub lent: [usize; 7],
}

impl Call {
    pub fn proper(book: Vec<f64>, n: usize, repeat: usize, draws: Vec<u64>) -> Call {
        let lent = [n, n, n, n * n, floats_for(n), numbers_for(n), 4];
        Call { book, rows: n, cols: n, repeat, draws, by: By::Draws, lent }
    }
    /// The same call with its draws taken so; by a seed it has no list of them.
    pub fn taking(&self, by: By) -> Call {
        let draws = if by == By::Draws { self.draws.clone() } else { vec![] };
        Call { book: self.book.clone(), draws, by, ..*self }
    }
}

/// What a call gives: number, place, groups, draws read; the outputs of a grouping, doubles as their bits; whether the working lists are wiped.
pub struct Answer {
    pub told: [usize; 4],
    pub outputs: Option<[Vec<u64>; 4]>,
    pub wiped: bool,
}

fn refusal(number: usize, place: usize, wiped: bool) -> Answer {
    Answer { told: [number, place, 0, 0], outputs: None, wiped }
}

/// The bits of a double, all NaNs as one.
pub fn bits(x: f64) -> u64 {
    if x.is_nan() {
        f64::NAN.to_bits()
    } else {
        x.to_bits()
    }
}

/// The unchanged Rust on a book, with draws from the source and at most 32 rounds.
pub fn by_rust(book: &[f64], n: usize, repeat: usize, source: Source, seed: u64) -> (Answer, Control) {
    answered(book, n, repeat, source, |rows| get_onc_clusters_with_seed(rows, repeat, seed))
}

/// The unchanged Rust on a call within the limits.
pub fn rust_of(call: &Call) -> (Answer, Control) {
    let (book, n, repeat) = (&call.book, call.rows, call.repeat);
    match call.by {
        By::Draws => by_rust(book, n, repeat, Source::List(call.draws.clone()), 0),
        By::Seed(seed) => by_rust(book, n, repeat, Source::Seeded, seed),
        By::DefaultSeed => answered(book, n, repeat, Source::Seeded, |rows| get_onc_clusters(rows, repeat)),
    }
}

/// What one of the Rust's calls gives for a book.
fn answered(book: &[f64], n: usize, repeat: usize, source: Source, run: impl FnOnce(&DMatrix<f64>) -> Result<OncResult, OncError>) -> (Answer, Control) {
    let rows = matrix(book, n);
    install(Control::new(source, repeat as u64, 32));
    let run = catch_unwind(AssertUnwindSafe(|| run(&rows)));
    let control = install(Control::plain());
    let answer = match run {
        Ok(Ok(found)) => {
            let order: Vec<u64> = found.clusters.values().flatten().map(|&i| i as u64).collect();
            let mut sizes: Vec<u64> = found.clusters.values().map(|g| g.len() as u64).collect();
            sizes.resize(n, 0);
            let scores = found.silhouette_scores.iter().map(|&x| bits(x)).collect();
            let m = &found.ordered_correlation;
            let ordered = (0..n * n).map(|c| bits(m[(c / n, c % n)])).collect();
            let groups = found.clusters.len();
            assert!(found.clusters.keys().copied().eq(0..groups), "the Rust's labels have a gap");
            Answer { told: [0, 0, groups, control.taken as usize], outputs: Some([order, sizes, scores, ordered]), wiped: true }
        }
        Ok(Err(OncError::ClusteringFailed)) => refusal(3, 0, true),
        Ok(Err(e)) => panic!("the Rust ended with {e:?}"),
        Err(payload) => match payload.downcast::<Signal>().map(|s| *s) {
            Ok(Signal::Short { read }) => refusal(7, read as usize, true),
            Ok(Signal::Range { place }) => refusal(8, place as usize, true),
            Ok(Signal::Rounds) => refusal(9, 0, true),
            Ok(s) => panic!("the draws ended with {s:?}"),
            Err(_) => panic!("the Rust panicked"),
        },
    };
    (answer, control)
}

/// The rows of the table that keep every list, from the top.
fn refused(call: &Call) -> Option<usize> {
    let n = call.rows;
    if call.repeat == 0 {
        return Some(1);
    }
    if n != call.cols || n < 2 {
        return Some(2);
    }
    if n > 256 || call.repeat > 64 {
        return Some(4);
    }
    if call.book.len() != n * n {
        return Some(5);
    }
    let [order, sizes, scores, ordered, floats, numbers, answer] = call.lent;
    if [order, sizes, scores] != [n; 3] || ordered != n * n || floats < floats_for(n) || numbers < numbers_for(n) || answer != 4 {
        return Some(6);
    }
    None
}

/// The source's own error, for a matrix that can be made: 1 and 2 are its InvalidRepeat and InvalidCorrelationMatrix.
fn error(call: &Call) -> Option<usize> {
    if call.rows.checked_mul(call.cols) != Some(call.book.len()) {
        return None;
    }
    let rows = DMatrix::from_fn(call.rows, call.cols, |i, j| call.book[i * call.cols + j]);
    match get_onc_clusters_with_seed(&rows, call.repeat, 0) {
        Err(OncError::InvalidRepeat) => Some(1),
        Err(OncError::InvalidCorrelationMatrix) => Some(2),
        _ => None,
    }
}

pub fn expected(call: &Call) -> Answer {
    match refused(call) {
        Some(number) => {
            if number < 3 {
                assert!(error(call).is_none_or(|e| e == number), "the Rust refuses otherwise");
            }
            refusal(number, 0, false)
        }
        None => rust_of(call).0,
    }
}

/// Keeps the signals by which a replayed run ends from being printed as panics.
pub fn silence() {
    std::panic::set_hook(Box::new(|info| {
        if !info.payload().is::<Signal>() {
            eprintln!("{info}");
        }
    }));
}
