//! The calls of the library, each as a safe function over slices. All `unsafe` of the crate is here.
//!
//! Every call is safe because a slice has a pointer that is never null and a length that is true, because no `&mut` list overlaps another list, and
//! because the library keeps no pointer and is proved to write within the lists alone.

mod library {
    extern "C" {
        pub fn onc_get_onc_clusters_with_seed(
            book: *const f64,
            book_len: usize,
            rows: usize,
            cols: usize,
            repeat: usize,
            seed: u64,
            order: *mut usize,
            order_len: usize,
            sizes: *mut usize,
            sizes_len: usize,
            scores: *mut f64,
            scores_len: usize,
            ordered: *mut f64,
            ordered_len: usize,
            floats: *mut f64,
            floats_len: usize,
            numbers: *mut usize,
            numbers_len: usize,
            answer: *mut usize,
            answer_len: usize,
        ) -> usize;
        pub fn onc_get_onc_clusters(
            book: *const f64,
            book_len: usize,
            rows: usize,
            cols: usize,
            repeat: usize,
            order: *mut usize,
            order_len: usize,
            sizes: *mut usize,
            sizes_len: usize,
            scores: *mut f64,
            scores_len: usize,
            ordered: *mut f64,
            ordered_len: usize,
            floats: *mut f64,
            floats_len: usize,
            numbers: *mut usize,
            numbers_len: usize,
            answer: *mut usize,
            answer_len: usize,
        ) -> usize;
        pub fn onc_get_onc_clusters_with_draws(
            book: *const f64,
            book_len: usize,
            rows: usize,
            cols: usize,
            repeat: usize,
            draws: *const u64,
            draws_len: usize,
            order: *mut usize,
            order_len: usize,
            sizes: *mut usize,
            sizes_len: usize,
            scores: *mut f64,
            scores_len: usize,
            ordered: *mut f64,
            ordered_len: usize,
            floats: *mut f64,
            floats_len: usize,
            numbers: *mut usize,
            numbers_len: usize,
            answer: *mut usize,
            answer_len: usize,
        ) -> usize;
        pub fn onc_mean(values: *const f64, values_len: usize, average: *mut f64, average_len: usize, answer: *mut usize, answer_len: usize) -> usize;
        pub fn onc_variance(
            values: *const f64,
            values_len: usize,
            ddof: usize,
            average: *mut f64,
            average_len: usize,
            answer: *mut usize,
            answer_len: usize,
        ) -> usize;
        pub fn onc_std_dev(
            values: *const f64,
            values_len: usize,
            ddof: usize,
            average: *mut f64,
            average_len: usize,
            answer: *mut usize,
            answer_len: usize,
        ) -> usize;
        pub fn onc_check_book(cells: *const i64, cells_len: usize, rows: usize, cols: usize, answer: *mut usize, answer_len: usize) -> usize;
        pub fn onc_draws_for(names: usize) -> u64;
    }
}

/// The lists that a grouping is lent: four outputs, two working lists, and the answer (number, place, groups, draws read).
pub(crate) struct Lent<'a> {
    pub order: &'a mut [usize],
    pub sizes: &'a mut [usize],
    pub scores: &'a mut [f64],
    pub ordered: &'a mut [f64],
    pub floats: &'a mut [f64],
    pub numbers: &'a mut [usize],
    pub answer: &'a mut [usize],
}

pub(crate) fn get_onc_clusters_with_seed(book: &[f64], rows: usize, cols: usize, repeat: usize, seed: u64, lent: Lent) -> usize {
    // SAFETY: as at the top of this module.
    unsafe {
        library::onc_get_onc_clusters_with_seed(
            book.as_ptr(),
            book.len(),
            rows,
            cols,
            repeat,
            seed,
            lent.order.as_mut_ptr(),
            lent.order.len(),
            lent.sizes.as_mut_ptr(),
            lent.sizes.len(),
            lent.scores.as_mut_ptr(),
            lent.scores.len(),
            lent.ordered.as_mut_ptr(),
            lent.ordered.len(),
            lent.floats.as_mut_ptr(),
            lent.floats.len(),
            lent.numbers.as_mut_ptr(),
            lent.numbers.len(),
            lent.answer.as_mut_ptr(),
            lent.answer.len(),
        )
    }
}

pub(crate) fn get_onc_clusters(book: &[f64], rows: usize, cols: usize, repeat: usize, lent: Lent) -> usize {
    // SAFETY: as at the top of this module.
    unsafe {
        library::onc_get_onc_clusters(
            book.as_ptr(),
            book.len(),
            rows,
            cols,
            repeat,
            lent.order.as_mut_ptr(),
            lent.order.len(),
            lent.sizes.as_mut_ptr(),
            lent.sizes.len(),
            lent.scores.as_mut_ptr(),
            lent.scores.len(),
            lent.ordered.as_mut_ptr(),
            lent.ordered.len(),
            lent.floats.as_mut_ptr(),
            lent.floats.len(),
            lent.numbers.as_mut_ptr(),
            lent.numbers.len(),
            lent.answer.as_mut_ptr(),
            lent.answer.len(),
        )
    }
}

pub(crate) fn get_onc_clusters_with_draws(book: &[f64], rows: usize, cols: usize, repeat: usize, draws: &[u64], lent: Lent) -> usize {
    // SAFETY: as at the top of this module.
    unsafe {
        library::onc_get_onc_clusters_with_draws(
            book.as_ptr(),
            book.len(),
            rows,
            cols,
            repeat,
            draws.as_ptr(),
            draws.len(),
            lent.order.as_mut_ptr(),
            lent.order.len(),
            lent.sizes.as_mut_ptr(),
            lent.sizes.len(),
            lent.scores.as_mut_ptr(),
            lent.scores.len(),
            lent.ordered.as_mut_ptr(),
            lent.ordered.len(),
            lent.floats.as_mut_ptr(),
            lent.floats.len(),
            lent.numbers.as_mut_ptr(),
            lent.numbers.len(),
            lent.answer.as_mut_ptr(),
            lent.answer.len(),
        )
    }
}

pub(crate) fn mean(values: &[f64], average: &mut [f64], answer: &mut [usize]) -> usize {
    // SAFETY: as at the top of this module.
    unsafe {
        library::onc_mean(
            values.as_ptr(),
            values.len(),
            average.as_mut_ptr(),
            average.len(),
            answer.as_mut_ptr(),
            answer.len(),
        )
    }
}

pub(crate) fn variance(values: &[f64], ddof: usize, average: &mut [f64], answer: &mut [usize]) -> usize {
    // SAFETY: as at the top of this module.
    unsafe {
        library::onc_variance(
            values.as_ptr(),
            values.len(),
            ddof,
            average.as_mut_ptr(),
            average.len(),
            answer.as_mut_ptr(),
            answer.len(),
        )
    }
}

pub(crate) fn std_dev(values: &[f64], ddof: usize, average: &mut [f64], answer: &mut [usize]) -> usize {
    // SAFETY: as at the top of this module.
    unsafe {
        library::onc_std_dev(
            values.as_ptr(),
            values.len(),
            ddof,
            average.as_mut_ptr(),
            average.len(),
            answer.as_mut_ptr(),
            answer.len(),
        )
    }
}

pub(crate) fn check_book(cells: &[i64], rows: usize, cols: usize, answer: &mut [usize]) -> usize {
    // SAFETY: as at the top of this module.
    unsafe { library::onc_check_book(cells.as_ptr(), cells.len(), rows, cols, answer.as_mut_ptr(), answer.len()) }
}

pub(crate) fn draws_for(names: usize) -> u64 {
    // SAFETY: a call by value.
    unsafe { library::onc_draws_for(names) }
}

#[cfg(test)]
mod tests {
    use super::*;

    const BOOK: [f64; 4] = [1.0, 0.0, 0.0, 1.0];

    /// A call of an average, by the lists that it is lent.
    type Average = fn(&mut [f64], &mut [usize]) -> usize;

    /// A call of the grouping for two names, by the lists that it is lent.
    type Call = fn(Lent) -> usize;

    /// By a seed, by the default seed, and with draws.
    const CALLS: [Call; 3] = [
        |lent| get_onc_clusters_with_seed(&BOOK, 2, 2, 1, 7, lent),
        |lent| get_onc_clusters(&BOOK, 2, 2, 1, lent),
        |lent| get_onc_clusters_with_draws(&BOOK, 2, 2, 1, &[0, 0, 1 << 52], lent),
    ];

    /// A call with lists of these lengths: order, sizes, scores, ordered, floats, numbers, answer. The number, and whether a list changed.
    fn called(call: Call, lengths: [usize; 7]) -> (usize, bool) {
        let [order, sizes, scores, ordered, floats, numbers, answer] = lengths;
        let (mut o, mut s, mut n, mut a) = (vec![77; order], vec![77; sizes], vec![77; numbers], vec![77; answer]);
        let (mut c, mut m, mut f) = (vec![7.5; scores], vec![7.5; ordered], vec![7.5; floats]);
        let lent = Lent {
            order: &mut o,
            sizes: &mut s,
            scores: &mut c,
            ordered: &mut m,
            floats: &mut f,
            numbers: &mut n,
            answer: &mut a,
        };
        let number = call(lent);
        let numbers_kept = [&o, &s, &n].iter().all(|list| list.iter().all(|&x| x == 77));
        let doubles_kept = [&c, &m, &f].iter().all(|list| list.iter().all(|&x| x == 7.5));
        (number, !(numbers_kept && doubles_kept))
    }

    #[test]
    fn lists_of_wrong_length_are_refused_and_kept() {
        let right = [2, 2, 2, 4, 8 * 4 + 256 * 2, 320 * 2, 4];
        for call in CALLS {
            assert_eq!(called(call, right), (0, true));
            for list in 0..7 {
                for wrong in [right[list] - 1, 0] {
                    let mut lengths = right;
                    lengths[list] = wrong;
                    assert_eq!(called(call, lengths), (6, false), "list {list} of length {wrong}");
                }
            }
            for list in [0, 1, 2, 3, 6] {
                let mut lengths = right;
                lengths[list] += 1;
                assert_eq!(called(call, lengths), (6, false), "list {list} of length {}", lengths[list]);
            }
        }
    }

    #[test]
    fn working_lists_are_zero_at_the_front_and_kept_behind_it() {
        let (floats_front, numbers_front) = (8 * 4 + 256 * 2, 320 * 2);
        for call in CALLS {
            let (mut floats, mut numbers) = (vec![7.5; floats_front + 3], vec![77; numbers_front + 3]);
            let (mut order, mut sizes, mut scores, mut ordered, mut answer) = ([0; 2], [0; 2], [0.0; 2], [0.0; 4], [0; 4]);
            let lent = Lent {
                order: &mut order,
                sizes: &mut sizes,
                scores: &mut scores,
                ordered: &mut ordered,
                floats: &mut floats,
                numbers: &mut numbers,
                answer: &mut answer,
            };
            assert_eq!(call(lent), 0);
            assert_eq!(answer, [0, 0, 2, 3]);
            assert!(floats[..floats_front].iter().all(|&x| x == 0.0) && floats[floats_front..] == [7.5; 3]);
            assert!(numbers[..numbers_front].iter().all(|&x| x == 0) && numbers[numbers_front..] == [77; 3]);
        }
    }

    #[test]
    fn averages_and_intake_refuse_lists_of_wrong_length() {
        let calls: [Average; 3] = [|a, b| mean(&[1.0], a, b), |a, b| variance(&[1.0], 0, a, b), |a, b| std_dev(&[1.0], 0, a, b)];
        for call in calls {
            for (average, answer) in [(0, 2), (2, 2), (1, 1), (1, 3), (1, 0)] {
                let (mut a, mut b) = (vec![7.5; average], vec![77; answer]);
                assert_eq!(call(&mut a, &mut b), 6);
                assert!(a.iter().all(|&x| x == 7.5) && b.iter().all(|&x| x == 77));
            }
        }
        for answer in [0, 1, 3] {
            let mut b = vec![77; answer];
            assert_eq!(check_book(&[1_000_000, 0, 1, 1_000_000], 2, 2, &mut b), 6);
            assert!(b.iter().all(|&x| x == 77));
        }
    }
}
