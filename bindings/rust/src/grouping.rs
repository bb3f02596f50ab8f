use crate::raw;
use crate::refusal::{answered, Refusal};

/// The seed of [`get_onc_clusters`].
pub const DEFAULT_SEED: u64 = 42;

/// The most names of a book.
const MOST: usize = 256;

/// The lengths that the working lists must have at least for so many names.
fn working(names: usize) -> (usize, usize) {
    (8 * names * names + 256 * names, 320 * names)
}

/// A grouping of the names 0, 1, .. of a book: every name is in exactly one group, and no group is empty.
#[derive(Clone, Debug, PartialEq)]
pub struct Grouping {
    order: Vec<usize>,
    sizes: Vec<usize>,
    scores: Vec<f64>,
    ordered: Vec<f64>,
    draws_read: usize,
}

impl Grouping {
    /// How many groups there are: one at least.
    #[allow(clippy::len_without_is_empty)]
    pub fn len(&self) -> usize {
        self.sizes.len()
    }

    /// How many names there are.
    pub fn names(&self) -> usize {
        self.order.len()
    }

    /// The groups by rising number, each as the list of its names in the group's order.
    pub fn groups(&self) -> impl ExactSizeIterator<Item = &[usize]> {
        let mut rest = self.order.as_slice();
        self.sizes.iter().map(move |&size| {
            let (group, behind) = rest.split_at(size);
            rest = behind;
            group
        })
    }

    /// The number of each name's group, by name.
    pub fn labels(&self) -> Vec<usize> {
        let mut labels = vec![0; self.names()];
        for (label, group) in self.groups().enumerate() {
            for &name in group {
                labels[name] = label;
            }
        }
        labels
    }

    /// The groups one after the other.
    pub fn order(&self) -> &[usize] {
        &self.order
    }

    /// The size of each group.
    pub fn sizes(&self) -> &[usize] {
        &self.sizes
    }

    /// The silhouette score of each name, by name.
    pub fn scores(&self) -> &[f64] {
        &self.scores
    }

    /// The correlation matrix with rows and columns in the order of `order`, row by row.
    pub fn ordered(&self) -> &[f64] {
        &self.ordered
    }

    /// How many draws were read: of the generator by a seed, else from the front of the list, and no others have a part in the answer.
    pub fn draws_read(&self) -> usize {
        self.draws_read
    }
}

/// The working lists of the grouping, kept from call to call.
///
/// They grow to the largest book that was grouped, and a book of any size can follow any other. What a call answers depends on nothing that an earlier one left.
#[derive(Clone, Debug, Default)]
pub struct Grouper {
    floats: Vec<f64>,
    numbers: Vec<usize>,
}

impl Grouper {
    /// A grouper that has no working lists yet.
    pub fn new() -> Grouper {
        Grouper::default()
    }

    /// As the function [`get_onc_clusters`](crate::get_onc_clusters), with this grouper's working lists.
    pub fn get_onc_clusters(&mut self, book: &[f64], rows: usize, cols: usize, repeat: usize) -> Result<Grouping, Refusal> {
        self.grouped(book, rows, |lent| raw::get_onc_clusters(book, rows, cols, repeat, lent))
    }

    /// As the function [`get_onc_clusters_with_seed`](crate::get_onc_clusters_with_seed), with this grouper's working lists.
    pub fn get_onc_clusters_with_seed(&mut self, book: &[f64], rows: usize, cols: usize, repeat: usize, seed: u64) -> Result<Grouping, Refusal> {
        self.grouped(book, rows, |lent| raw::get_onc_clusters_with_seed(book, rows, cols, repeat, seed, lent))
    }

    /// As the function [`get_onc_clusters_with_draws`](crate::get_onc_clusters_with_draws), with this grouper's working lists.
    pub fn get_onc_clusters_with_draws(&mut self, book: &[f64], rows: usize, cols: usize, repeat: usize, draws: &[u64]) -> Result<Grouping, Refusal> {
        self.grouped(book, rows, |lent| raw::get_onc_clusters_with_draws(book, rows, cols, repeat, draws, lent))
    }

    /// What a call answers that is lent lists for the rows of this book.
    fn grouped(&mut self, book: &[f64], rows: usize, call: impl FnOnce(raw::Lent) -> usize) -> Result<Grouping, Refusal> {
        // Lists are made for a book of its length alone. The library refuses all others by 1, 2, 4 or 5 before it asks for the lists.
        let names = if rows <= MOST && book.len() == rows * rows { rows } else { 0 };
        let (floats, numbers) = working(names);
        if self.floats.len() < floats {
            self.floats.resize(floats, 0.0);
        }
        if self.numbers.len() < numbers {
            self.numbers.resize(numbers, 0);
        }
        let mut found = Grouping {
            order: vec![0; names],
            sizes: vec![0; names],
            scores: vec![0.0; names],
            ordered: vec![0.0; names * names],
            draws_read: 0,
        };
        let mut answer = [0; 4];
        let lent = raw::Lent {
            order: &mut found.order,
            sizes: &mut found.sizes,
            scores: &mut found.scores,
            ordered: &mut found.ordered,
            floats: &mut self.floats,
            numbers: &mut self.numbers,
            answer: &mut answer,
        };
        let number = call(lent);
        let [_, place, groups, draws_read] = answer;
        answered(number, place)?;
        found.sizes.truncate(groups);
        found.draws_read = draws_read;
        Ok(found)
    }
}

/// As [`get_onc_clusters_with_seed`] with [`DEFAULT_SEED`].
pub fn get_onc_clusters(book: &[f64], rows: usize, cols: usize, repeat: usize) -> Result<Grouping, Refusal> {
    Grouper::new().get_onc_clusters(book, rows, cols, repeat)
}

/// Groups the names of a book by ONC: k-means for every number of groups, the best silhouette t-stat, weak groups clustered again.
///
/// The book is a correlation matrix of 2 to 256 names, row by row; NaN and infinite cells are taken. `repeat` is 1 to 64. The random draws are those of
/// rand 0.10's `StdRng`, seeded by `seed_from_u64`; no seed is refused, and the same seed gives the same grouping.
///
/// Refusals: 1, 2, 4, 5; 9 as the run meets it.
///
/// ```
/// let book = [
///     1.0, 0.875, 0.125, 0.125, //
///     0.875, 1.0, 0.125, 0.125, //
///     0.125, 0.125, 1.0, 0.875, //
///     0.125, 0.125, 0.875, 1.0,
/// ];
/// let grouping = onc::get_onc_clusters_with_seed(&book, 4, 4, 1, 42)?;
/// assert_eq!(grouping.labels(), [0, 0, 1, 1]);
/// assert!(grouping.groups().eq([[0, 1], [2, 3]]));
/// assert_eq!(onc::get_onc_clusters(&book, 4, 4, 1), Ok(grouping));
///
/// assert_eq!(onc::get_onc_clusters_with_seed(&book, 4, 4, 0, 42), Err(onc::Refusal::InvalidRepeat));
/// # Ok::<(), onc::Refusal>(())
/// ```
pub fn get_onc_clusters_with_seed(book: &[f64], rows: usize, cols: usize, repeat: usize, seed: u64) -> Result<Grouping, Refusal> {
    Grouper::new().get_onc_clusters_with_seed(book, rows, cols, repeat, seed)
}

/// As [`get_onc_clusters_with_seed`], with the random draws from a list of the caller's own in place of a seed.
///
/// For each repeat and each number of groups of a round the first is an index, below the number of the round's names;
/// those behind it are shares, below 2^53 and meaning themselves over 2^53 (indexes again where the names' least squared distances to a centre do not sum to
/// more than 0). [`draws_enough`](crate::draws_enough) says how many are always enough. Zeros, in range everywhere, are for trying out. Random numbers below the
/// number of names everywhere give poor groupings: as shares they are close to 0. Proper ones start as random shares; a refusal by 8 names the place of a draw
/// that is read as an index, and one by 7 says that another round starts, which reads no more than the first.
///
/// Refusals: those by a seed; 7 and 8 as the run meets them.
///
/// ```
/// let book = [
///     1.0, 0.875, 0.125, 0.125, //
///     0.875, 1.0, 0.125, 0.125, //
///     0.125, 0.125, 1.0, 0.875, //
///     0.125, 0.125, 0.875, 1.0,
/// ];
/// let grouping = onc::get_onc_clusters_with_draws(&book, 4, 4, 1, &[0; 10])?;
/// assert_eq!(grouping.labels(), [1, 1, 0, 0]);
/// assert!(grouping.groups().eq([[2, 3], [0, 1]]));
///
/// let refused = onc::get_onc_clusters_with_draws(&book, 4, 4, 1, &[0; 9]);
/// assert_eq!(refused, Err(onc::Refusal::TooFewDraws { read: 0 }));
/// # Ok::<(), onc::Refusal>(())
/// ```
pub fn get_onc_clusters_with_draws(book: &[f64], rows: usize, cols: usize, repeat: usize, draws: &[u64]) -> Result<Grouping, Refusal> {
    Grouper::new().get_onc_clusters_with_draws(book, rows, cols, repeat, draws)
}

/// How many draws a round of so many names reads with so many repeats; none outside 2 to 256 names and 1 to 64 repeats.
///
/// ```
/// assert_eq!(onc::draws_for(4, 1), Some(10));
/// assert_eq!(onc::draws_for(12, 2), Some(416));
/// assert_eq!(onc::draws_for(257, 1), None);
/// ```
pub fn draws_for(names: usize, repeat: usize) -> Option<u64> {
    match (raw::draws_for(names), repeat) {
        (0, _) => None,
        (one, 1..=64) => Some(one * repeat as u64),
        _ => None,
    }
}

/// How many draws are enough for every book of so many names, whatever its cells: 32 times the first round's. With so many no run ends by 7.
///
/// ```
/// assert_eq!(onc::draws_enough(4, 1), Some(320));
/// ```
pub fn draws_enough(names: usize, repeat: usize) -> Option<u64> {
    draws_for(names, repeat).map(|round| 32 * round)
}
