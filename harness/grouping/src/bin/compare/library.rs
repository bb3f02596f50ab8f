//! The functions of the proved archives, and a call of the grouping with all that it writes.
use crate::certain::Certain;
use grouping_harness::call::{bits, Answer, By, Call};
use kmeans_harness::leaf::{floats_for, numbers_for};
use kmeans_harness::lent::Lent;
use kmeans_harness::random::Random;

// a slice is a pointer and a length
extern "C" {
    fn onc_get_onc_clusters_with_draws(
        book: *const f64,
        book_len: usize,
        rows: usize,
        cols: usize,
        repeat: usize,
        draws: *const u64,
        draws_len: usize,
        order: *mut usize,
        order_len: usize,
        sizes: *mut usize,
        sizes_len: usize,
        scores: *mut f64,
        scores_len: usize,
        ordered: *mut f64,
        ordered_len: usize,
        floats: *mut f64,
        floats_len: usize,
        numbers: *mut usize,
        numbers_len: usize,
        answer: *mut usize,
        answer_len: usize,
    ) -> usize;
    fn onc_get_onc_clusters_with_seed(
        book: *const f64,
        book_len: usize,
        rows: usize,
        cols: usize,
        repeat: usize,
        seed: u64,
        order: *mut usize,
        order_len: usize,
        sizes: *mut usize,
        sizes_len: usize,
        scores: *mut f64,
        scores_len: usize,
        ordered: *mut f64,
        ordered_len: usize,
        floats: *mut f64,
        floats_len: usize,
        numbers: *mut usize,
        numbers_len: usize,
        answer: *mut usize,
        answer_len: usize,
    ) -> usize;
    fn onc_get_onc_clusters(
        book: *const f64,
        book_len: usize,
        rows: usize,
        cols: usize,
        repeat: usize,
        order: *mut usize,
        order_len: usize,
        sizes: *mut usize,
        sizes_len: usize,
        scores: *mut f64,
        scores_len: usize,
        ordered: *mut f64,
        ordered_len: usize,
        floats: *mut f64,
        floats_len: usize,
        numbers: *mut usize,
        numbers_len: usize,
        answer: *mut usize,
        answer_len: usize,
    ) -> usize;
    pub fn onc_mean(values: *const f64, values_len: usize, average: *mut f64, average_len: usize, answer: *mut usize, answer_len: usize) -> usize;
    pub fn onc_variance(
        values: *const f64,
        values_len: usize,
        ddof: usize,
        average: *mut f64,
        average_len: usize,
        answer: *mut usize,
        answer_len: usize,
    ) -> usize;
    pub fn onc_std_dev(
        values: *const f64,
        values_len: usize,
        ddof: usize,
        average: *mut f64,
        average_len: usize,
        answer: *mut usize,
        answer_len: usize,
    ) -> usize;
    pub fn onc_check_book(cells: *const i64, cells_len: usize, rows: usize, cols: usize, answer: *mut usize, answer_len: usize) -> usize;
    pub fn onc_draws_for(names: usize) -> u64;
    // of `harness_exports`, which test nothing of what they ask
    pub fn onc_book_pairs(book: *const f64, book_len: usize, n: usize, rows: *const usize, rows_len: usize, area: *mut f64, area_len: usize);
    pub fn onc_seed_in(
        area: *const f64,
        area_len: usize,
        m: usize,
        draws: *const u64,
        draws_len: usize,
        at: usize,
        centres: *mut usize,
        centres_len: usize,
        weights: *mut f64,
        weights_len: usize,
    ) -> usize;
    pub fn onc_lloyd_in(area: *mut f64, area_len: usize, m: usize, centres: *const usize, centres_len: usize, labels: *mut usize, labels_len: usize);
    pub fn onc_scores_in(
        area: *const f64,
        area_len: usize,
        m: usize,
        labels: *const usize,
        labels_len: usize,
        k: usize,
        scores: *mut f64,
        scores_len: usize,
    );
    pub fn onc_tstat_of(scores: *const f64, scores_len: usize) -> f64;
}

/// The call on lists of cells of 8 bytes: order, sizes, scores, ordered, floats, numbers, answer, of the lengths that the call says.
unsafe fn grouping(call: &Call, book: *const u64, draws: *const u64, lists: [*mut u64; 7]) -> usize {
    let [order, sizes, scores, ordered, floats, numbers, answer] = lists;
    let lent = call.lent;
    // the call of this name, with what it takes for its draws
    macro_rules! called {
        ($name:ident, $($draws:expr),*) => {
            $name(
                book.cast(),
                call.book.len(),
                call.rows,
                call.cols,
                call.repeat,
                $($draws,)*
                order.cast(),
                lent[0],
                sizes.cast(),
                lent[1],
                scores.cast(),
                lent[2],
                ordered.cast(),
                lent[3],
                floats.cast(),
                lent[4],
                numbers.cast(),
                lent[5],
                answer.cast(),
                lent[6],
            )
        };
    }
    match call.by {
        By::Draws => called!(onc_get_onc_clusters_with_draws, draws, call.draws.len()),
        By::Seed(seed) => called!(onc_get_onc_clusters_with_seed, seed),
        By::DefaultSeed => called!(onc_get_onc_clusters,),
    }
}

/// Lists that hold anything, lent once or again and again.
pub struct Lists([Vec<u64>; 7]);

impl Lists {
    pub fn new(call: &Call) -> Lists {
        Lists(call.lent.map(|n| vec![0x5a5a_5a5a_5a5a_5a5a; n]))
    }
    /// The call; the number that it returns.
    pub fn run(&mut self, call: &Call) -> usize {
        let lists = self.0.each_mut().map(|list| list.as_mut_ptr());
        unsafe { grouping(call, call.book.as_ptr().cast(), call.draws.as_ptr(), lists) }
    }
    pub fn told(&self) -> [usize; 4] {
        std::array::from_fn(|i| self.0[6][i] as usize)
    }
    /// Whether the answer and, of a grouping, the outputs are these.
    pub fn hold(&self, want: &Answer) -> bool {
        self.told() == want.told && want.outputs.as_ref().is_none_or(|lists| (0..4).all(|i| cells(&self.0[i], i > 1) == lists[i]))
    }
}

/// What of two calls on equal lists differs, in words: the number returned, or what a list then holds, bit for bit.
pub fn apart(one: &Call, other: &Call) -> Vec<String> {
    let mut lists = [Lists::new(one), Lists::new(other)];
    let numbers = [lists[0].run(one), lists[1].run(other)];
    let names = ["order", "sizes", "scores", "matrix", "working doubles", "working numbers", "answer"];
    let unlike = names.iter().enumerate().filter(|&(i, _)| lists[0].0[i] != lists[1].0[i]).map(|(_, name)| format!("{name} of the two unlike"));
    (numbers[0] != numbers[1]).then(|| format!("returned {} and {}", numbers[0], numbers[1])).into_iter().chain(unlike).collect()
}

/// Cells as they are compared: of doubles their bits, all NaNs as one.
fn cells(list: &[u64], doubles: bool) -> Vec<u64> {
    list.iter().map(|&x| if doubles { bits(f64::from_bits(x)) } else { x }).collect()
}

/// What of a call differs, in words; nothing where all is as expected. What it left is looked at for what is certain of every book too.
pub fn differences(r: &mut Random, call: &Call, want: &Answer, certain: &mut Certain) -> Vec<String> {
    let mut book = Lent::new(r, call.book.iter().map(|x| x.to_bits()));
    let mut draws = Lent::new(r, call.draws.iter().copied());
    let mut lists = call.lent.map(|n| Lent::any(r, n));
    let number = unsafe { grouping(call, book.at::<u64>(), draws.at(), lists.each_mut().map(|list| list.at())) };
    let [order, sizes, scores, ordered, floats, numbers, answer] = &lists;
    let groups = answer.list().get(2).map_or(0, |&groups| groups as usize);
    certain.look(call, number, groups, [order.list(), sizes.list(), scores.list(), ordered.list()]);
    let mut differ = Vec::new();
    let mut note = |right: bool, what: &dyn Fn() -> String| {
        if !right {
            differ.push(what());
        }
    };
    note(number == want.told[0], &|| format!("returned {number} for {}", want.told[0]));
    if call.lent[6] == 4 {
        note(answer.is(&want.told), &|| format!("answer {:?} for {:?}", answer.list(), want.told));
    } else {
        note(answer.kept(), &|| "an answer list that is not of length 4 is not as it was".into());
    }
    note(book.kept() && draws.kept(), &|| "an input is changed".into());
    for (i, (list, what)) in [(order, "order"), (sizes, "sizes"), (scores, "scores"), (ordered, "matrix")].into_iter().enumerate() {
        match &want.outputs {
            Some(outputs) => {
                note(cells(list.list(), i > 1) == outputs[i], &|| format!("{what} {:x?} for {:x?}", list.list(), outputs[i]));
                note(list.guarded(), &|| format!("cells around {what} are written"));
            }
            None => note(list.kept(), &|| format!("{what} is not as it was")),
        }
    }
    let (zero_floats, zero_numbers) = if want.wiped { (floats_for(call.rows), numbers_for(call.rows)) } else { (0, 0) };
    note(floats.zero_in_front(zero_floats), &|| "the working doubles are not as promised".into());
    note(numbers.zero_in_front(zero_numbers), &|| "the working numbers are not as promised".into());
    differ
}
