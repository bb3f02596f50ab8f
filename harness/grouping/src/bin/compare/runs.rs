//! Whole runs on made-up books: each by a seed, with the draws of that seeded run, with hostile lists of draws, and with lists or sizes that are
//! wrong.
use crate::certain::Certain;
use crate::library::{apart, differences};
use grouping_harness::books::{named, of_kind};
use grouping_harness::call::{by_rust, expected, Answer, By, Call};
use kmeans_harness::draws::limit;
use kmeans_harness::random::Random;
use rand::Source;
use std::collections::BTreeMap;

/// What occurred, by heading and kind: books, or calls with how many of them differ.
#[derive(Default)]
struct Counts {
    books: BTreeMap<(&'static str, String), usize>,
    calls: BTreeMap<(&'static str, String), (usize, usize)>,
    compared: usize,
    /// Of those compared, the ones by a seed and the ones of `get_onc_clusters`.
    by_seed: usize,
    without: usize,
    differ: usize,
    certain: Certain,
}

impl Counts {
    fn book(&mut self, heading: &'static str, kind: String) {
        *self.books.entry((heading, kind)).or_default() += 1;
    }
    /// Compares a call with what it must answer.
    fn add(&mut self, r: &mut Random, call: &Call, want: &Answer, kind: &str) {
        let found = differences(r, call, want, &mut self.certain);
        self.note(call, want.told[0], found, kind);
    }
    /// Counts a call that must answer a number, and what of it differs.
    fn note(&mut self, call: &Call, number: usize, found: Vec<String>, kind: &str) {
        let wrong = usize::from(!found.is_empty());
        self.compared += 1;
        self.by_seed += usize::from(matches!(call.by, By::Seed(_)));
        self.without += usize::from(call.by == By::DefaultSeed);
        self.differ += wrong;
        if wrong == 1 && self.differ <= 5 {
            println!("differs: {kind}, {} names, {} repeats: {}", call.rows, call.repeat, found.join("; "));
        }
        for row in [("calls", kind.to_string()), (if call.by == By::Draws { "answer" } else { "seeded" }, format!("{number:2}"))] {
            let row = self.calls.entry(row).or_default();
            row.0 += 1;
            row.1 += wrong;
        }
    }
    /// Compares a call with what the Rust, or the table, answers to it.
    fn ask(&mut self, r: &mut Random, call: &Call, kind: &str) {
        let want = expected(call);
        self.add(r, call, &want, kind);
    }
    fn print(&self, books: usize) {
        for ((heading, kind), count) in &self.books {
            println!("{heading:7} {kind:28} {count:9} books");
        }
        for ((heading, kind), (compared, differ)) in &self.calls {
            println!("{heading:7} {kind:28} {compared:9} compared, {differ} differ");
        }
        self.certain.print();
        println!("by a seed: {} calls of get_onc_clusters_with_seed, {} of get_onc_clusters", self.by_seed, self.without);
        println!("{books} books, {} calls compared, {} differ", self.compared, self.differ);
    }
}

/// The ends of what a draw may be, and values just over them.
fn ends(n: usize) -> [u64; 6] {
    [0, n as u64 - 1, n as u64, (1 << 53) - 1, 1 << 53, u64::MAX]
}

/// Draws that end before a round, and one draw before its end: of every round, and somewhere; or one draw before the end of the last alone.
fn too_few(r: &mut Random, counts: &mut Counts, call: &Call, rounds: &[u64], every: bool) {
    let mut ask = |left: usize, kind: &str| counts.ask(r, &Call { draws: call.draws[..left].to_vec(), ..call.clone() }, kind);
    if !every {
        return ask(call.draws.len() - 1, "one draw too few");
    }
    let mut start = 0;
    for &m in rounds {
        ask(start, "no draws for a round");
        start += call.repeat * rand::count(m) as usize;
        ask(start - 1, "one draw too few");
    }
    let left = r.below(call.draws.len());
    counts.ask(r, &Call { draws: call.draws[..left].to_vec(), ..call.clone() }, "too few draws");
}

/// One draw replaced by an end: every draw by each of them, or one by one.
fn one_draw(r: &mut Random, counts: &mut Counts, call: &Call, every: bool) {
    let mut ask = |r: &mut Random, place: usize, value: u64, kind: &str| {
        let mut draws = call.draws.clone();
        draws[place] = value;
        counts.ask(r, &Call { draws, ..call.clone() }, kind);
    };
    if !every {
        let (place, value) = (r.below(call.draws.len()), r.one_of(&ends(call.rows)));
        return ask(r, place, value, "one draw at an end");
    }
    for place in 0..call.draws.len() {
        for value in ends(call.rows) {
            ask(r, place, value, "each draw at each end");
        }
    }
}

/// All draws the least or the greatest in range, as the Rust asks for them.
fn in_range(r: &mut Random, counts: &mut Counts, call: &Call) {
    let (mut own, only) = (Random::new(r.bits()), r.below(4));
    let rule = move |_, kind| match only {
        0 => limit(kind) - 1,
        1 => 0,
        _ => own.one_of(&[0, limit(kind) - 1]),
    };
    let (want, control) = by_rust(&call.book, call.rows, call.repeat, Source::Policy(Box::new(rule)), 0);
    counts.add(r, &Call { draws: control.draws, ..call.clone() }, &want, "all draws least or greatest");
}

/// All draws at ends, whatever is asked for: one of them throughout, or any.
fn at_ends(r: &mut Random, counts: &mut Counts, call: &Call) {
    let ends = ends(call.rows);
    let one = r.one_of(&ends);
    let throughout = r.once_in(2);
    let draws = call.draws.iter().map(|_| if throughout { one } else { r.one_of(&ends) }).collect();
    counts.ask(r, &Call { draws, ..call.clone() }, if throughout { "all draws at one end" } else { "all draws at ends" });
}

/// A call with one list, or one size, that is wrong, by its number: the book and the seven lists of five lengths each, then sizes and repeats.
fn wrong(call: &Call, fault: usize) -> Option<Call> {
    let n = call.rows;
    let mut call = call.clone();
    if fault < 40 {
        let (list, length) = (fault / 5, |right: usize| [0, 1, right - 1, right + 1, 2 * right][fault % 5]);
        match list {
            7 => call.book.resize(length(n * n), 0.5),
            _ => call.lent[list] = length(call.lent[list]),
        }
        return Some(call);
    }
    let (rows, cols, repeat) = *[
        (n, n, 0),
        (n, n, 65),
        (n, n, usize::MAX),
        (n, n - 1, call.repeat),
        (n, n + 1, call.repeat),
        (n + 1, n, call.repeat),
        (n, usize::MAX, call.repeat),
        (1, n * n, call.repeat),
        (0, 0, call.repeat),
        (1, 1, call.repeat),
        (n + 1, n + 1, call.repeat),
        (257, 257, call.repeat),
        (1 << 32, 1 << 32, call.repeat),
        (usize::MAX, usize::MAX, call.repeat),
    ]
    .get(fault - 40)?;
    Some(Call { rows, cols, repeat, ..call })
}

/// Lists and sizes that are wrong: each by itself, or one alone and two at once; with draws and by a seed.
fn wrong_lists(r: &mut Random, counts: &mut Counts, call: &Call, by: By, every: bool) {
    let faults: Vec<Call> = (0..).map_while(|fault| wrong(call, fault)).collect();
    let one = r.below(faults.len());
    for fault in if every { &faults[..] } else { &faults[one..one + 1] } {
        counts.ask(r, fault, if every { "each wrong list or size" } else { "a wrong list or size" });
        counts.ask(r, &fault.taking(by), if every { "each wrong one, by a seed" } else { "a wrong one, by a seed" });
    }
    // the lists of one fault with the sizes and repeats of another
    let other = &faults[r.from(40, faults.len() - 1)];
    let two = Call { rows: other.rows, cols: other.cols, repeat: other.repeat, ..faults[r.below(40)].clone() };
    counts.ask(r, &two, "two wrong at once");
    counts.ask(r, &two.taking(by), "two wrong, by a seed");
}

/// A seed: any, mostly; 42 for `get_onc_clusters`; at the ends of the range and of a word; those of crates/test_streams whose first index takes a
/// second word.
fn a_seed(r: &mut Random) -> u64 {
    match r.below(8) {
        0 | 1 => 42,
        2 => r.one_of(&[0, 1, 1 << 32, u64::MAX, 500346866, 137173759, 1220054703]),
        _ => r.bits(),
    }
}

/// The call by the seed of the recorded run, and that of seed 42 by `get_onc_clusters` too: as the Rust answers, and bit for bit as on the list of
/// the recorded draws. Some working lists are longer than they must be.
fn by_seed(r: &mut Random, counts: &mut Counts, call: &Call, want: &Answer, seed: u64) {
    let mut call = call.clone();
    for list in [4, 5] {
        call.lent[list] += r.one_of(&[0, 0, 1, 9]);
    }
    let seeded = call.taking(By::Seed(seed));
    counts.add(r, &seeded, want, "by the seed");
    counts.note(&seeded, want.told[0], apart(&call, &seeded), "by the seed as by its draws");
    if seed == 42 {
        let plain = call.taking(By::DefaultSeed);
        if call.rows <= 12 {
            counts.ask(r, &plain, "without a seed");
        } else {
            counts.add(r, &plain, want, "without a seed");
        }
    }
}

/// All of the above for small books, one of them for books of up to 100 names; beyond that the Rust takes seconds for a run.
fn one_book(r: &mut Random, counts: &mut Counts, n: usize) {
    let (kind, book) = if n > 100 { ("blocks".into(), of_kind(r, 1, n)) } else { named(r, n) };
    let repeat = if n > 24 { 1 } else { r.one_of(&[1, 1, 1, 2, 3]) };
    let seed = a_seed(r);
    let (want, control) = by_rust(&book, n, repeat, Source::Seeded, seed);
    let call = Call::proper(book, n, repeat, control.draws);
    counts.book("book", kind);
    counts.book("repeats", repeat.to_string());
    counts.book("rounds", format!("{:2}", control.rounds.len()));
    counts.add(r, &call, &want, "draws of a seeded run");
    by_seed(r, counts, &call, &want, seed);
    let small = n <= 12;
    let mut behind = call.clone();
    behind.draws.extend((0..r.from(1, 9)).map(|_| r.bits()));
    if small {
        counts.ask(r, &behind, "others behind them");
    } else {
        counts.add(r, &behind, &want, "others behind them");
    }
    too_few(r, counts, &call, &control.rounds, small);
    let one = if n > 100 { 4 } else { r.below(4) };
    if small || one == 0 {
        let every = small && ((call.draws.len() <= 40 && r.once_in(4)) || (call.draws.len() <= 400 && r.once_in(50)));
        one_draw(r, counts, &call, every);
    }
    if small || one == 1 {
        in_range(r, counts, &call);
    }
    if small || one == 2 {
        at_ends(r, counts, &call);
    }
    if small || one == 3 {
        let every = small && r.once_in(10);
        let by = if seed == 42 { By::DefaultSeed } else { By::Seed(seed) };
        wrong_lists(r, counts, &call, by, every);
    }
}

/// Names of the book at a place: mostly 2 to 40, one book in 2,000 of up to 100, one in 20,000 of up to 200, and one of 256 in 50,000 and more.
fn names(r: &mut Random, at: usize) -> usize {
    if at == 49_999 {
        return 256;
    }
    match (at % 20_000, at % 2_000) {
        (19_998, _) => r.from(101, 200),
        (_, 1_000) => r.from(41, 100),
        _ => match r.below(100) {
            0..=2 => r.from(25, 40),
            3..=14 => r.from(13, 24),
            15..=49 => r.from(7, 12),
            _ => r.from(2, 6),
        },
    }
}

const SIZES: [(usize, usize); 7] = [(2, 6), (7, 12), (13, 24), (25, 40), (41, 100), (101, 200), (256, 256)];

pub fn runs(seed: u64, books: usize) -> bool {
    let mut r = Random::new(seed);
    let mut counts = Counts::default();
    for at in 0..books {
        let n = names(&mut r, at);
        let (from, to) = SIZES[SIZES.iter().position(|&(_, to)| n <= to).unwrap()];
        counts.book("names", format!("{from:3} to {to:3}"));
        one_book(&mut r, &mut counts, n);
    }
    counts.print(books);
    counts.differ == 0 && counts.certain.holds()
}
