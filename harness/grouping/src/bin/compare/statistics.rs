//! mean, variance and std_dev beside the unchanged util/stats.rs; check_book beside a plain reading of its rules; the counts of draws.
//! Sums start from -0 there and from +0 in the library: the mean of values that are all -0 is that value on both sides, and no sum of
//! squares is -0, so nothing may differ here.
use crate::library::{onc_check_book, onc_draws_for, onc_mean, onc_std_dev, onc_variance};
use grouping_harness::call::bits;
use kmeans_harness::lent::Lent;
use kmeans_harness::random::Random;
use openquant::util::stats;
use std::collections::BTreeMap;

#[derive(Default)]
struct Counts {
    rows: BTreeMap<(&'static str, String), (usize, usize)>,
    compared: usize,
    differ: usize,
}

impl Counts {
    fn add(&mut self, call: &'static str, kind: &str, number: usize, right: bool) {
        self.compared += 1;
        self.differ += usize::from(!right);
        if !right && self.differ <= 5 {
            println!("differs: {call}, {kind}, number {number}");
        }
        for row in [kind.to_string(), format!("answer {number:2}")] {
            let row = self.rows.entry((call, row)).or_default();
            row.0 += 1;
            row.1 += usize::from(!right);
        }
    }
}

const VALUES: [&str; 8] = ["random", "constant", "constant but one", "signed zeros", "NaN among them", "infinities", "huge", "any bits"];

fn values(r: &mut Random, kind: &str, n: usize) -> Vec<f64> {
    let constant = r.one_of(&[0.1, -0.0, 1e300, 5e-324, -7.25]);
    let mut list: Vec<f64> = (0..n)
        .map(|_| match kind {
            "constant" | "constant but one" => constant,
            "signed zeros" => r.one_of(&[0.0, -0.0]),
            "huge" => (2.0 * r.unit() - 1.0) * f64::MAX,
            "any bits" => f64::from_bits(r.bits()),
            _ => 20.0 * r.unit() - 10.0,
        })
        .collect();
    if n > 0 {
        let place = r.below(n);
        match kind {
            "constant but one" => list[place] = r.one_of(&[constant.next_up(), -constant, f64::NAN, 0.0]),
            "NaN among them" => list[place] = f64::from_bits(0x7ff0_0000_0000_0001 | r.bits() >> 12 | r.bits() << 63),
            "infinities" => {
                list[place] = f64::INFINITY;
                list[r.below(n)] = r.one_of(&[f64::INFINITY, f64::NEG_INFINITY]);
            }
            _ => (),
        }
    }
    list
}

/// The three averages of a list; `average` and `answer` of these lengths.
fn averages(r: &mut Random, counts: &mut Counts, kind: &str, list: &[f64], ddof: usize, lent: [usize; 2]) {
    for call in ["mean", "variance", "std_dev"] {
        let mut values = Lent::new(r, list.iter().map(|x| x.to_bits()));
        let [mut average, mut answer] = lent.map(|n| Lent::any(r, n));
        let (v, vl, m, ml, a, al) = (values.at(), list.len(), average.at(), lent[0], answer.at(), lent[1]);
        let (number, want) = unsafe {
            match call {
                "mean" => (onc_mean(v, vl, m, ml, a, al), stats::mean(list)),
                "variance" => (onc_variance(v, vl, ddof, m, ml, a, al), stats::variance(list, ddof)),
                _ => (onc_std_dev(v, vl, ddof, m, ml, a, al), stats::std_dev(list, ddof)),
            }
        };
        let expected = match (list.len() > 65_536, lent == [1, 2]) {
            (true, _) => 4,
            (_, false) => 6,
            _ => 0,
        };
        let written = match want.filter(|_| expected == 0) {
            Some(x) => average.guarded() && bits(f64::from_bits(average.list()[0])) == bits(x),
            None => average.kept(),
        };
        let told = if lent == [1, 2] { answer.is(&[expected, usize::from(expected == 0 && want.is_some())]) } else { answer.kept() };
        counts.add(call, kind, expected, number == expected && written && told && values.kept());
    }
}

fn statistics_of(r: &mut Random, counts: &mut Counts, calls: usize) {
    for n in [65_535, 65_536, 65_537, 131_072] {
        for kind in VALUES {
            let list = values(r, kind, n);
            for (ddof, lent) in [(1, [1, 2]), (n - 1, [1, 2]), (n, [1, 2]), (0, [0, 2]), (0, [1, 3])] {
                averages(r, counts, kind, &list, ddof, lent);
            }
        }
    }
    for _ in 0..calls {
        let n = r.one_of(&[0, 1, 2, 3, 4, 5, 8, 13, 40, 256, 1000]);
        let kind = r.one_of(&VALUES);
        let list = values(r, kind, n);
        for ddof in (n.saturating_sub(2)..n + 3).chain([0, 1, usize::MAX]) {
            averages(r, counts, kind, &list, ddof, [1, 2]);
        }
        let lent = [r.below(4), r.below(5)];
        averages(r, counts, kind, &list, 0, lent);
    }
}

/// The rules of the intake check, read plainly: number and place.
fn intake(cells: &[i64], rows: usize, cols: usize, places: usize) -> [usize; 2] {
    if rows != cols || rows < 2 {
        return [2, 0];
    }
    if rows > 256 {
        return [4, 0];
    }
    if cells.len() != rows * rows {
        return [5, 0];
    }
    if places != 2 {
        return [6, 0];
    }
    for i in 0..rows {
        for j in 0..rows {
            let place = i * rows + j;
            let cell = cells[place];
            if !(-1_000_000..=1_000_000).contains(&cell) {
                return [21, place];
            }
            if i == j && cell != 1_000_000 {
                return [22, place];
            }
            if cell != cells[j * rows + i] {
                return [23, place];
            }
        }
    }
    [0, 0]
}

fn check(r: &mut Random, counts: &mut Counts, kind: &str, cells: &[i64], rows: usize, cols: usize, places: usize) {
    let want = intake(cells, rows, cols, places);
    let mut book = Lent::new(r, cells.iter().map(|&x| x as u64));
    let mut answer = Lent::any(r, places);
    let number = unsafe { onc_check_book(book.at(), cells.len(), rows, cols, answer.at(), places) };
    let told = if places == 2 { answer.is(&want) } else { answer.kept() };
    counts.add("check_book", kind, want[0], number == want[0] && told && book.kept());
}

fn proper(r: &mut Random, n: usize) -> Vec<i64> {
    let mut cells = vec![1_000_000; n * n];
    for i in 0..n {
        for j in 0..i {
            let any = r.below(2_000_001) as i64 - 1_000_000;
            cells[i * n + j] = r.one_of(&[0, -1_000_000, 1_000_000, any]);
            cells[j * n + i] = cells[i * n + j];
        }
    }
    cells
}

fn intake_of(r: &mut Random, counts: &mut Counts, calls: usize) {
    let odd = [-1_000_001, 1_000_001, 999_999, -1_000_000, 0, i64::MIN, i64::MAX];
    for n in [2, 3, 5, 256] {
        let book = proper(r, n);
        for place in (0..n * n).step_by(n.div_ceil(5)) {
            for cell in odd {
                let mut book = book.clone();
                book[place] = cell;
                check(r, counts, "one cell changed", &book, n, n, 2);
            }
        }
    }
    for _ in 0..calls {
        let n = if r.once_in(200) { 256 } else { r.from(2, 40) };
        let mut book = proper(r, n);
        check(r, counts, "proper", &book, n, n, 2);
        for _ in 0..r.below(4) {
            let place = r.below(n * n);
            book[place] = r.one_of(&odd);
        }
        check(r, counts, "some cells changed", &book, n, n, 2);
        let rows = r.one_of(&[n, 0, 1, n - 1, n + 1, 257, 1 << 32, usize::MAX]);
        let cols = if r.once_in(2) { rows } else { r.one_of(&[n, 0, n + 1, usize::MAX]) };
        let places = r.below(5);
        book.resize(r.one_of(&[n * n, n * n, 0, n * n - 1, n * n + 1]), 0);
        check(r, counts, "wrong lists or sizes", &book, rows, cols, places);
    }
}

/// The draws of a round for one repeat, by the rule of the source.
fn counts_of_draws(counts: &mut Counts) {
    for names in (0..=1000).chain([1 << 32, 1 << 63, usize::MAX]) {
        let want = if (2..=256).contains(&names) { rand::count(names as u64) } else { 0 };
        let found = unsafe { onc_draws_for(names) };
        counts.add("draws_for", "each number of names", 0, found == want);
    }
}

pub fn statistics(seed: u64, calls: usize) -> bool {
    let mut r = Random::new(seed);
    let mut counts = Counts::default();
    statistics_of(&mut r, &mut counts, calls);
    intake_of(&mut r, &mut counts, calls);
    counts_of_draws(&mut counts);
    for ((call, kind), (compared, differ)) in &counts.rows {
        println!("{call:10} {kind:22} {compared:9} compared, {differ} differ");
    }
    println!("{} calls compared, {} differ", counts.compared, counts.differ);
    counts.differ == 0
}
