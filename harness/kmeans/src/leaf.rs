//! A call of one of the three leaves, and what it must answer: refusals by the table, the rest by the unchanged Rust.
use crate::books::matrix;
use openquant::onc_leaf::{open, OncError};
use rand::{install, rngs::StdRng, Control, SeedableRng, Signal, Source};
use std::panic::{catch_unwind, AssertUnwindSafe};

#[derive(Clone, Copy, Debug, PartialEq, Eq, PartialOrd, Ord)]
pub enum Leaf {
    Seeding,
    Lloyd,
    Labels,
}

pub const LEAVES: [Leaf; 3] = [Leaf::Seeding, Leaf::Lloyd, Leaf::Labels];

/// A call by its inputs and the lengths of the lists lent to it.
#[derive(Clone, Debug)]
pub struct Call {
    pub leaf: Leaf,
    pub points: Vec<f64>,
    pub n: usize,
    /// the group count; for Lloyd the count of centres
    pub k: usize,
    /// the draws; for Lloyd the centres
    pub list: Vec<u64>,
    pub out: usize,
    pub floats: usize,
    pub numbers: usize,
    /// the length of the list for the answer
    pub told: usize,
}

/// What a call must answer and leave.
#[derive(Clone, Debug, PartialEq, Eq)]
pub struct Answer {
    pub number: usize,
    pub place: usize,
    pub read: usize,
    /// the output list; none where it is left as it was
    pub out: Option<Vec<usize>>,
    /// whether the fronts of the working lists are left zero
    pub wiped: bool,
}

/// The fronts of the working lists for n names.
pub fn floats_for(n: usize) -> usize {
    8 * n * n + 256 * n
}

pub fn numbers_for(n: usize) -> usize {
    320 * n
}

/// The draws that k-means++ takes for k centres.
pub fn need(k: usize) -> usize {
    1 + (k - 1) * rand::trials(k as u64) as usize
}

impl Call {
    /// A call with lists of the right lengths.
    pub fn proper(leaf: Leaf, points: Vec<f64>, n: usize, k: usize, list: Vec<u64>) -> Call {
        let out = if leaf == Leaf::Seeding { k } else { n };
        Call {
            leaf,
            points,
            n,
            k,
            list,
            out,
            floats: floats_for(n),
            numbers: numbers_for(n),
            told: 3,
        }
    }
}

/// What ended a call of the Rust.
#[derive(Clone, Debug, PartialEq)]
pub enum Ended {
    Out(Vec<usize>),
    Failed(OncError),
    Signalled(Signal),
    Panicked,
}

/// Panics of the Rust are answers here: nothing is printed of them.
pub fn silence() {
    std::panic::set_hook(Box::new(|info| {
        let rust = info.location().is_some_and(|l| l.file().ends_with("onc_leaf.rs"));
        if !rust && !info.payload().is::<Signal>() {
            eprintln!("{info}");
        }
    }));
}

/// The call on the unchanged Rust, with draws from the source.
pub fn by_rust(call: &Call, source: Source) -> (Ended, Control) {
    let rows = matrix(&call.points, call.n);
    install(Control::new(source, 0, usize::MAX));
    let centres: Vec<usize> = call.list.iter().map(|&c| c as usize).collect();
    let run = catch_unwind(AssertUnwindSafe(|| match call.leaf {
        Leaf::Seeding => Ok(open::kmeans_plus_plus(&rows, call.k)),
        Leaf::Lloyd => Ok(open::lloyd(&rows, &centres)),
        Leaf::Labels => open::kmeans_labels(&rows, call.k, &mut StdRng::seed_from_u64(0)),
    }));
    let control = install(Control::plain());
    let ended = match run {
        Ok(Ok(out)) => Ended::Out(out),
        Ok(Err(e)) => Ended::Failed(e),
        Err(payload) => match payload.downcast::<Signal>() {
            Ok(s) => Ended::Signalled(*s),
            Err(_) => Ended::Panicked,
        },
    };
    (ended, control)
}

/// The rows of the table that keep every list, from the top; with the place for 10.
fn refused(call: &Call) -> Option<(usize, usize)> {
    let n = call.n;
    if n < 2 {
        return Some((2, 0));
    }
    if n > 256 {
        return Some((4, 0));
    }
    if call.points.len() != n * n {
        return Some((5, 0));
    }
    let out = if call.leaf == Leaf::Seeding { call.k } else { n };
    if call.out != out || call.floats < floats_for(n) || call.numbers < numbers_for(n) || call.told != 3 {
        return Some((6, 0));
    }
    if call.k < 2 || call.k > n {
        return Some((29, 0));
    }
    if call.leaf == Leaf::Lloyd {
        if let Some(place) = call.list.iter().position(|&c| c >= n as u64) {
            return Some((10, place));
        }
    }
    None
}

/// Whether the Rust fails too where the table has 29 for `kmeans_labels`, or 10. (Its row numbers wrap: 2^63 is row 0 of
/// a book of 2 names, in a build without overflow checks. Such centres are not asked.)
fn rust_fails(call: &Call, number: usize) -> bool {
    match (call.leaf, number) {
        (Leaf::Labels, 29) => {
            by_rust(call, Source::List(call.list.clone())).0 == Ended::Failed(OncError::ClusteringFailed)
        }
        (Leaf::Lloyd, 10) if call.list.iter().all(|&c| c < 1 << 32) => {
            by_rust(call, Source::Seeded).0 == Ended::Panicked
        }
        _ => true,
    }
}

/// The answer to a call. Panics where the Rust does what no row of the table accounts for.
pub fn expected(call: &Call) -> Answer {
    if let Some((number, place)) = refused(call) {
        assert!(rust_fails(call, number), "the Rust takes what is refused by {number}");
        return Answer {
            number,
            place,
            read: 0,
            out: None,
            wiped: false,
        };
    }
    if call.leaf != Leaf::Lloyd && call.list.len() < need(call.k) {
        return Answer {
            number: 7,
            place: 0,
            read: 0,
            out: None,
            wiped: true,
        };
    }
    match by_rust(call, Source::List(call.list.clone())) {
        (Ended::Out(out), control) => {
            let read = control.taken as usize;
            assert!(
                call.leaf == Leaf::Lloyd || read == need(call.k),
                "the Rust took {read} draws"
            );
            Answer {
                number: 0,
                place: 0,
                read,
                out: Some(out),
                wiped: true,
            }
        }
        (Ended::Signalled(Signal::Range { place }), _) => Answer {
            number: 8,
            place: place as usize,
            read: 0,
            out: None,
            wiped: true,
        },
        (other, _) => panic!("the Rust ended with {other:?}"),
    }
}
