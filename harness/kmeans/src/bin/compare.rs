//! Compares the proved library with the unchanged Rust, and times both. Usage: see run.sh.
//!   compare calls [SEED] [CALLS]     chosen calls, then CALLS made-up ones (60000); the status is 0 if none differs
//!   compare time [RUNS]              k-means for every k from 2 to n - 1, medians of RUNS runs (5; more for small books, at most 3 for 256 names)
use kmeans_harness::books::{block_correlations, distances, matrix, Book, BOOKS};
use kmeans_harness::draws::{bad, in_range, limit, DRAWS};
use kmeans_harness::lent::Lent;
use kmeans_harness::leaf::{expected, floats_for, need, numbers_for, silence, Answer, Call, Leaf, LEAVES};
use kmeans_harness::random::Random;
use openquant::onc_leaf::open;
use rand::{install, rngs::StdRng, Control, SeedableRng, Source};
use std::collections::BTreeMap;
use std::hint::black_box;
use std::time::Instant;

extern "C" {
    fn onc_kmeans_plus_plus(
        points: *const f64,
        points_len: usize,
        n: usize,
        k: usize,
        draws: *const u64,
        draws_len: usize,
        centres: *mut usize,
        centres_len: usize,
        floats: *mut f64,
        floats_len: usize,
        numbers: *mut usize,
        numbers_len: usize,
        answer: *mut usize,
        answer_len: usize,
    ) -> usize;
    fn onc_lloyd(
        points: *const f64,
        points_len: usize,
        n: usize,
        centres: *const usize,
        centres_len: usize,
        labels: *mut usize,
        labels_len: usize,
        floats: *mut f64,
        floats_len: usize,
        numbers: *mut usize,
        numbers_len: usize,
        answer: *mut usize,
        answer_len: usize,
    ) -> usize;
    fn onc_kmeans_labels(
        points: *const f64,
        points_len: usize,
        n: usize,
        k: usize,
        draws: *const u64,
        draws_len: usize,
        labels: *mut usize,
        labels_len: usize,
        floats: *mut f64,
        floats_len: usize,
        numbers: *mut usize,
        numbers_len: usize,
        answer: *mut usize,
        answer_len: usize,
    ) -> usize;
    // inner forms, which test nothing of what they ask
    fn onc_prepare(points: *const f64, points_len: usize, m: usize, area: *mut f64, area_len: usize);
    fn onc_labels_in(
        area: *mut f64,
        area_len: usize,
        m: usize,
        k: usize,
        draws: *const u64,
        draws_len: usize,
        at: usize,
        labels: *mut usize,
        labels_len: usize,
    ) -> usize;
}

/// What of a call differs, in words; nothing where all is as expected.
fn differences(r: &mut Random, call: &Call, want: &Answer) -> Vec<String> {
    let mut points = Lent::new(r, call.points.iter().map(|x| x.to_bits()));
    let mut list = Lent::new(r, call.list.iter().copied());
    let mut out = Lent::any(r, call.out);
    let mut floats = Lent::any(r, call.floats);
    let mut numbers = Lent::any(r, call.numbers);
    let told = call.told;
    let mut answer = Lent::any(r, told);
    let (p, pl, l, ll, o, ol) = (
        points.at(),
        points.len(),
        list.at::<u64>(),
        list.len(),
        out.at(),
        out.len(),
    );
    let (f, fl, m, ml, a) = (floats.at(), floats.len(), numbers.at(), numbers.len(), answer.at());
    let number = unsafe {
        match call.leaf {
            Leaf::Seeding => onc_kmeans_plus_plus(p, pl, call.n, call.k, l, ll, o, ol, f, fl, m, ml, a, told),
            Leaf::Lloyd => onc_lloyd(p, pl, call.n, l.cast(), ll, o, ol, f, fl, m, ml, a, told),
            Leaf::Labels => onc_kmeans_labels(p, pl, call.n, call.k, l, ll, o, ol, f, fl, m, ml, a, told),
        }
    };
    let mut differ = Vec::new();
    let mut note = |right: bool, what: String| {
        if !right {
            differ.push(what);
        }
    };
    note(number == want.number, format!("returned {number} for {}", want.number));
    if told == 3 {
        note(
            answer.is(&[want.number, want.place, want.read]),
            format!(
                "answer {:?} for {} {} {}",
                answer.list(),
                want.number,
                want.place,
                want.read
            ),
        );
    } else {
        note(
            answer.kept(),
            "an answer list that is not of length 3 is not as it was".to_string(),
        );
    }
    note(points.kept() && list.kept(), "an input is changed".to_string());
    match &want.out {
        Some(cells) => note(out.is(cells), format!("out {:?} for {cells:?}", out.list())),
        None => note(out.kept(), "the output is not as it was".to_string()),
    }
    let (zero_floats, zero_numbers) = if want.wiped {
        (floats_for(call.n), numbers_for(call.n))
    } else {
        (0, 0)
    };
    note(
        floats.zero_in_front(zero_floats),
        "the working doubles are not as promised".to_string(),
    );
    note(
        numbers.zero_in_front(zero_numbers),
        "the working numbers are not as promised".to_string(),
    );
    differ
}

/// Counts by kind: compared and different.
#[derive(Default)]
struct Counts {
    rows: BTreeMap<(&'static str, String), (usize, usize)>,
    compared: usize,
    differ: usize,
}

impl Counts {
    fn add(&mut self, r: &mut Random, call: &Call, kinds: &[(&'static str, String)]) {
        let mut call = call.clone();
        if r.once_in(20) {
            call.told = r.one_of(&[0, 1, 2, 4, 9]);
        }
        let want = expected(&call);
        let found = differences(r, &call, &want);
        let wrong = usize::from(!found.is_empty());
        self.compared += 1;
        self.differ += wrong;
        if wrong == 1 && self.differ <= 5 {
            println!(
                "differs: {:?} n {} k {} {kinds:?}: {}",
                call.leaf,
                call.n,
                call.k,
                found.join("; ")
            );
        }
        let answered = ("answer", format!("{:?} {}", call.leaf, want.number));
        for kind in kinds.iter().cloned().chain([answered]) {
            let row = self.rows.entry(kind).or_default();
            row.0 += 1;
            row.1 += wrong;
        }
    }
    fn print(&self) {
        for ((group, name), (compared, differ)) in &self.rows {
            println!("{group:8} {name:24} {compared:7} compared, {differ} differ");
        }
        println!("{} calls compared, {} differ", self.compared, self.differ);
    }
}

fn chosen(name: &str) -> Vec<(&'static str, String)> {
    vec![("chosen", name.to_string())]
}

/// Centres for Lloyd.
fn centres(r: &mut Random, n: usize, k: usize) -> Vec<u64> {
    match r.below(4) {
        0 => vec![r.below(n) as u64; k],
        1 => (0..k as u64).collect(),
        _ => (0..k).map(|_| r.below(n) as u64).collect(),
    }
}

/// Draws or centres that are in range.
fn list_for(r: &mut Random, leaf: Leaf, points: &[f64], n: usize, k: usize) -> Vec<u64> {
    if leaf == Leaf::Lloyd {
        centres(r, n, k)
    } else {
        in_range(r, points, n, k).0
    }
}

/// Every place with each value out of range, every list that is too short, one longer; for every k of small books.
fn chosen_draws(r: &mut Random, counts: &mut Counts) {
    for n in 2..=6 {
        for book in BOOKS {
            let points = book.points(r, n);
            for k in 2..=n {
                for leaf in [Leaf::Seeding, Leaf::Labels] {
                    let (good, kinds) = in_range(r, &points, n, k);
                    let call = |list: Vec<u64>| Call::proper(leaf, points.clone(), n, k, list);
                    for place in 0..good.len() {
                        for value in [limit(kinds[place]) - 1, limit(kinds[place]), u64::MAX] {
                            let mut list = good.clone();
                            list[place] = value;
                            counts.add(r, &call(list), &chosen("each place's ends"));
                        }
                        counts.add(r, &call(good[..place].to_vec()), &chosen("each shorter list"));
                    }
                    counts.add(
                        r,
                        &call(good.iter().copied().chain([u64::MAX]).collect()),
                        &chosen("one draw more"),
                    );
                }
            }
        }
    }
}

/// Every list of a wrong length by itself, group counts and centres out of range, and sizes that no book has.
fn chosen_lists(r: &mut Random, counts: &mut Counts) {
    for n in [2, 3, 5, 8] {
        for leaf in LEAVES {
            for k in [2, n] {
                let points = Book::Distances.points(r, n);
                let list = list_for(r, leaf, &points, n, k);
                let good = Call::proper(leaf, points, n, k, list);
                let mut add = |name: &str, change: &dyn Fn(&mut Call)| {
                    let mut call = good.clone();
                    change(&mut call);
                    if leaf == Leaf::Lloyd {
                        call.k = call.list.len();
                    }
                    counts.add(r, &call, &chosen(name));
                };
                let (out, f, m) = (good.out, good.floats, good.numbers);
                for length in [0, 1, out - 1, out + 1, out + 7, n * n] {
                    add("output list", &|c| c.out = length);
                }
                for length in [0, 1, f / 2, f - 1, f + 1, f + 100] {
                    add("working doubles", &|c| c.floats = length);
                }
                for length in [0, 1, m / 2, m - 1, m + 1, m + 100] {
                    add("working numbers", &|c| c.numbers = length);
                }
                for length in [0, 1, n, n * n - 1, n * n + 1, (n + 1) * (n + 1)] {
                    add("points", &|c| c.points.resize(length, 0.5));
                }
                for names in [0, 1, n - 1, n + 1, 256, 257, 1 << 32, 1 << 63, usize::MAX] {
                    add("names", &|c| c.n = names);
                    add("names, no points", &|c| {
                        c.n = names;
                        c.points.clear();
                    });
                }
                for k in [0, 1, n + 1, 257, 1 << 32, usize::MAX] {
                    add("group count", &|c| {
                        c.k = k;
                        if leaf == Leaf::Lloyd {
                            c.list.resize(k.min(300), 0);
                        }
                        if leaf == Leaf::Seeding && k < 300 {
                            c.out = k;
                        }
                    });
                }
                if leaf == Leaf::Lloyd {
                    for place in 0..k {
                        for centre in [n as u64, 1 << 32, u64::MAX] {
                            add("each centre", &|c| c.list[place] = centre);
                            add("all centres from there", &|c| c.list[place..].fill(centre));
                        }
                    }
                }
            }
        }
    }
}

/// 3 names, every cell 0.1, turned to distances: the labels swing for all 300 passes.
fn chosen_cut(r: &mut Random, counts: &mut Counts) {
    for n in 2..=16 {
        for cell in [0.1, 0.2, 0.3, 0.7] {
            let points = distances(&vec![cell; n * n], n);
            for k in 2..=n {
                let zeros = vec![0; need(k)];
                counts.add(
                    r,
                    &Call::proper(Leaf::Labels, points.clone(), n, k, zeros.clone()),
                    &chosen("rows all alike"),
                );
                counts.add(
                    r,
                    &Call::proper(Leaf::Seeding, points.clone(), n, k, zeros),
                    &chosen("rows all alike"),
                );
                counts.add(
                    r,
                    &Call::proper(Leaf::Lloyd, points.clone(), n, k, vec![0; k]),
                    &chosen("rows all alike"),
                );
            }
        }
    }
}

/// The group counts at which the number of trials changes, with draws enough and with one too few.
fn chosen_trials(r: &mut Random, counts: &mut Counts) {
    for (n, ks) in [
        (150, [2, 3, 7, 8, 20, 21, 54, 55, 148, 149, 150].as_slice()),
        (256, &[2, 149, 255, 256]),
    ] {
        let points = Book::Block.points(r, n);
        for &k in ks {
            for leaf in [Leaf::Seeding, Leaf::Labels] {
                let good = in_range(r, &points, n, k).0;
                let short = good[..good.len() - 1].to_vec();
                for list in [good, short] {
                    counts.add(
                        r,
                        &Call::proper(leaf, points.clone(), n, k, list),
                        &chosen("where trials change"),
                    );
                }
            }
        }
    }
}

/// A fault of one list or number, put into a call.
fn with_fault(r: &mut Random, call: &mut Call) -> &'static str {
    match r.below(9) {
        0 => {
            call.n = r.one_of(&[0, 1, 257, 300, 1 << 32, usize::MAX]);
            "names"
        }
        1 => {
            call.points.pop();
            "points"
        }
        2 => {
            call.points.push(0.5);
            "points"
        }
        3 => {
            call.out = r.one_of(&[0, call.out.saturating_sub(1), call.out + 1, call.out + 9]);
            "output list"
        }
        4 => {
            call.floats = r.one_of(&[0, call.floats.saturating_sub(1), call.floats / 2]);
            "working doubles"
        }
        5 => {
            call.numbers = r.one_of(&[0, call.numbers.saturating_sub(1), call.numbers / 2]);
            "working numbers"
        }
        6 | 7 => {
            let k = r.one_of(&[0, 1, call.n.min(256) + 1, call.n.min(256) + 5]);
            call.k = k;
            if call.leaf == Leaf::Lloyd {
                call.list.resize(k, 0);
            }
            if call.leaf == Leaf::Seeding {
                call.out = k;
            }
            "group count"
        }
        _ => {
            if let Some(last) = call.list.len().checked_sub(1) {
                call.list[r.below(last + 1)] = r.one_of(&[call.n as u64, 1 << 53, u64::MAX]);
            }
            "a draw or centre"
        }
    }
}

fn names(r: &mut Random, at: usize) -> usize {
    match at % 250 {
        0 => r.from(41, 256),
        1..=80 => r.from(2, 5),
        81..=180 => r.from(2, 15),
        _ => r.from(2, 40),
    }
}

fn made_up(r: &mut Random, counts: &mut Counts, at: usize) {
    let n = names(r, at);
    let book = r.one_of(&BOOKS);
    let leaf = r.one_of(&LEAVES);
    let k = if r.once_in(6) { n } else { r.from(2, n) };
    let points = book.points(r, n);
    let mut kinds = vec![
        ("book", format!("{book:?}")),
        ("names", if n > 40 { "41 to 256" } else { "2 to 40" }.to_string()),
    ];
    let list = if leaf == Leaf::Lloyd {
        kinds.push(("list", "centres".to_string()));
        centres(r, n, k)
    } else {
        let draws = r.one_of(&DRAWS);
        kinds.push(("list", format!("draws {draws:?}")));
        draws.list(r, &points, n, k)
    };
    let mut call = Call::proper(leaf, points, n, k, list);
    if r.once_in(2) {
        call.floats += r.below(40);
        call.numbers += r.below(40);
    }
    if leaf == Leaf::Lloyd && r.once_in(8) {
        let place = r.below(k);
        call.list[place] = bad(r, rand::Kind::Index(n as u64));
    }
    if r.once_in(5) {
        for _ in 0..r.from(1, 3) {
            kinds.push(("fault", with_fault(r, &mut call).to_string()));
        }
        if leaf == Leaf::Lloyd {
            call.k = call.list.len();
        }
        kinds.sort();
        kinds.dedup();
    }
    counts.add(r, &call, &kinds);
}

fn calls(seed: u64, made: usize) -> bool {
    let mut r = Random::new(seed);
    let mut counts = Counts::default();
    chosen_draws(&mut r, &mut counts);
    chosen_lists(&mut r, &mut counts);
    chosen_cut(&mut r, &mut counts);
    chosen_trials(&mut r, &mut counts);
    for at in 0..made {
        made_up(&mut r, &mut counts, at);
    }
    counts.print();
    counts.differ == 0
}

/// Least, middle and greatest of the times.
fn spread(mut times: Vec<f64>) -> (f64, f64, f64) {
    times.sort_by(f64::total_cmp);
    (times[0], times[times.len() / 2], times[times.len() - 1])
}

/// Every k on the Rust, with its points made once, and that counted: milliseconds, and all labels.
fn every_rust(points: &[f64], n: usize, lists: &[Vec<u64>]) -> (f64, Vec<usize>) {
    let rows = matrix(points, n);
    let mut labels = Vec::new();
    let start = Instant::now();
    let points = open::prepare(black_box(&rows));
    let mut took = start.elapsed().as_secs_f64();
    for (at, list) in lists.iter().enumerate() {
        install(Control::new(Source::List(list.clone()), 0, usize::MAX));
        let mut rng = StdRng::seed_from_u64(0);
        let start = Instant::now();
        let found = open::kmeans_labels_of(black_box(&points), at + 2, &mut rng).expect("a k from 2 to n");
        took += start.elapsed().as_secs_f64();
        labels.extend(found);
    }
    install(Control::plain());
    (took * 1e3, labels)
}

/// The same calls on the library.
fn every_leaf(points: &[f64], n: usize, lists: &[Vec<u64>]) -> (f64, Vec<usize>) {
    let (mut floats, mut numbers) = (vec![0.0; floats_for(n)], vec![0usize; numbers_for(n)]);
    let (mut labels, mut took) = (Vec::new(), 0.0);
    for (at, list) in lists.iter().enumerate() {
        let (mut out, mut answer) = (vec![0usize; n], [0usize; 3]);
        let start = Instant::now();
        unsafe {
            onc_kmeans_labels(
                black_box(points.as_ptr()),
                points.len(),
                n,
                at + 2,
                list.as_ptr(),
                list.len(),
                out.as_mut_ptr(),
                n,
                floats.as_mut_ptr(),
                floats.len(),
                numbers.as_mut_ptr(),
                numbers.len(),
                answer.as_mut_ptr(),
                3,
            );
        }
        took += start.elapsed().as_secs_f64();
        labels.extend(black_box(out));
    }
    (took * 1e3, labels)
}

/// The same k on the inner forms, as a round calls them: the points are prepared once, and that is counted.
fn every_round(points: &[f64], n: usize, lists: &[Vec<u64>]) -> (f64, Vec<usize>) {
    let mut area = vec![0.0; 5 * n * n];
    let mut labels = Vec::new();
    let start = Instant::now();
    unsafe { onc_prepare(black_box(points.as_ptr()), points.len(), n, area.as_mut_ptr(), area.len()) };
    let mut took = start.elapsed().as_secs_f64();
    for (at, list) in lists.iter().enumerate() {
        let mut out = vec![0usize; n];
        let start = Instant::now();
        let read = unsafe {
            onc_labels_in(area.as_mut_ptr(), area.len(), n, at + 2, list.as_ptr(), list.len(), 0, out.as_mut_ptr(), n)
        };
        took += start.elapsed().as_secs_f64();
        assert_eq!(read, list.len());
        labels.extend(black_box(out));
    }
    (took * 1e3, labels)
}

fn time(runs: usize) -> bool {
    println!("k-means for every k from 2 to n - 1, block book with noise, milliseconds: median (least to greatest).");
    println!("As a round: the points are prepared once, as on the Rust's side, and k-means is called for each k. Leaf by leaf: kmeans_labels");
    println!("for each k, which checks, prepares the points and wipes its working lists each time.");
    println!("| names | calls | runs | Rust | as a round | ratio | leaf by leaf | ratio | labels |");
    println!("|---|---|---|---|---|---|---|---|---|");
    let mut same = true;
    for n in [12, 20, 50, 100, 256] {
        let mut r = Random::new(n as u64);
        let points = distances(&block_correlations(&mut r, n, n.div_ceil(8), 0.1), n);
        let lists: Vec<Vec<u64>> = (2..n).map(|k| in_range(&mut r, &points, n, k).0).collect();
        let runs = if n > 100 {
            runs.min(3)
        } else if n > 20 {
            runs
        } else {
            10 * runs
        };
        let (mut rust, mut round, mut library, mut equal) = (Vec::new(), Vec::new(), Vec::new(), true);
        for _ in 0..runs {
            let (t, want) = every_rust(&points, n, &lists);
            rust.push(t);
            let (t, got) = every_round(&points, n, &lists);
            round.push(t);
            equal &= want == got;
            let (t, got) = every_leaf(&points, n, &lists);
            library.push(t);
            equal &= want == got;
        }
        same &= equal;
        let ((a, b, c), (d, e, f), (g, h, i)) = (spread(rust), spread(round), spread(library));
        let labels = if equal { "equal" } else { "DIFFER" };
        let (calls, whole, leaf) = (lists.len(), b / e, b / h);
        println!("| {n} | {calls} | {runs} | {b:.2} ({a:.2} to {c:.2}) | {e:.2} ({d:.2} to {f:.2}) | {whole:.1} | {h:.2} ({g:.2} to {i:.2}) | {leaf:.1} | {labels} |");
    }
    same
}

fn main() {
    silence();
    let words: Vec<String> = std::env::args().skip(1).collect();
    let number = |at: usize, other: u64| words.get(at).map_or(other, |w| w.parse().expect("a number"));
    let right = match words.first().map(String::as_str) {
        Some("calls") => calls(number(1, 1), number(2, 60000) as usize),
        Some("time") => time(number(1, 5) as usize),
        _ => panic!("calls [SEED] [CALLS], or time [RUNS]"),
    };
    std::process::exit(i32::from(!right));
}
