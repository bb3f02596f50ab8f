//! openquant's ONC grouping, proved in Rattle, behind a safe interface.
//!
//! [`get_onc_clusters_with_seed`] groups a book of 2 to 256 names by a seed, [`get_onc_clusters`] by [`DEFAULT_SEED`], [`get_onc_clusters_with_draws`] with
//! draws of the caller's own, which [`draws_for`] and [`draws_enough`] count; [`Grouper`] does the same with working lists that it keeps. [`mean`],
//! [`variance`] and [`std_dev`] are the averages below it; [`check_book`] checks a book in whole millionths. Bad input is refused by a [`Refusal`] or an
//! [`Improper`], with the numbers of the library's table. No call panics, whatever it is handed, unless another library is linked.
#![deny(missing_docs)]
#![deny(unsafe_code)]

mod grouping;
mod intake;
#[allow(unsafe_code)]
mod raw;
mod refusal;
mod stats;

pub use grouping::{draws_enough, draws_for, get_onc_clusters, get_onc_clusters_with_draws, get_onc_clusters_with_seed, Grouper, Grouping, DEFAULT_SEED};
pub use intake::{check_book, Improper};
pub use refusal::Refusal;
pub use stats::{mean, std_dev, variance};
