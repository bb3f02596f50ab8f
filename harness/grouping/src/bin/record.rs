//! Writes the runs that the program `test_runs` runs: run.sh record > crates/test_runs/stdin
//! Groupings are the unchanged Rust's with these draws; 7, 8 and 9 are where its draws or its rounds end; 1, 2, 4, 5 and 6 are the table's.
//! The layout stands in crates/test_runs/src/main.rt. With the argument `kinds` it writes the table of the kinds instead, each with its number
//! and how many runs it has: run.sh record-kinds > crates/test_runs/kinds.txt
//! With `seeds` it writes the runs that `test_seeds` runs, groupings and 9 as the unchanged Rust's calls by a seed and without one answer, and with
//! `seed-kinds` their kinds: run.sh record-seeds > crates/test_seeds/stdin, run.sh record-seed-kinds > crates/test_seeds/kinds.txt
use grouping_harness::books::{made_up, named, of_kind, pairs, KINDS};
use grouping_harness::call::{bits, by_rust, expected, rust_of, silence, Answer, By, Call};
use kmeans_harness::books::matrix;
use kmeans_harness::random::Random;
use openquant::onc_leaf::open;
use rand::{install, rngs::StdRng, Control, Kind, SeedableRng, Source};
use std::collections::{BTreeMap, BTreeSet};

/// What a lent list holds before a call: whole numbers 999, doubles 7.0.
const NUMBER: u64 = 999;
const DOUBLE: u64 = 0x401c_0000_0000_0000;

fn bits_of(book: &[f64]) -> Vec<u64> {
    book.iter().map(|x| x.to_bits()).collect()
}

#[derive(Default)]
struct Recorder {
    /// Whether the runs are only counted, not written.
    quiet: bool,
    /// The kinds and how many runs each has; a kind's number is its place, from 1.
    kinds: Vec<(String, usize)>,
    /// What the runs have, by names of their own: numbers answered, repeats, rounds, cells.
    traits: BTreeMap<String, usize>,
    groupings: usize,
    /// The books that have a grouping, by their bits.
    grouped: BTreeSet<Vec<u64>>,
}

impl Recorder {
    /// One run more of a kind; the kind's number.
    fn count(&mut self, kind: &str) -> u64 {
        let place = self.kinds.iter().position(|k| k.0 == kind).unwrap_or(self.kinds.len());
        if place == self.kinds.len() {
            self.kinds.push((kind.into(), 0));
        }
        self.kinds[place].1 += 1;
        place as u64 + 1
    }
    /// Counts what a run answers and has.
    fn count_traits(&mut self, call: &Call, want: &Answer) {
        let n = call.rows;
        let cells = &call.book;
        let mut traits = vec![format!("refused by {}", want.told[0])];
        if want.outputs.is_some() {
            let control = rust_of(call).1;
            let rounds = control.rounds.len();
            traits = vec![format!("groupings of {rounds} round{}", if rounds == 1 { "" } else { "s" })];
            let above: Vec<u64> = (0..n * n).filter(|c| c / n < c % n).map(|c| bits(cells[c])).collect();
            let tied = (1..above.len()).any(|c| above[..c].contains(&above[c]));
            let asymmetric = (0..n * n).any(|c| bits(cells[c]) != bits(cells[c % n * n + c / n]));
            for (name, has) in [
                ("groupings with NaN cells", cells.iter().any(|x| x.is_nan())),
                ("groupings with infinite cells", cells.iter().any(|x| x.is_infinite())),
                ("groupings of books that are not symmetric", asymmetric),
                ("groupings of books with ties: equal cells above the diagonal", tied),
                ("groupings with repeats above 1", call.repeat > 1),
            ] {
                if has {
                    traits.push(name.into());
                }
            }
            if call.by != By::Draws {
                traits.extend(of_seed(call, &control));
            }
        }
        for name in traits {
            *self.traits.entry(name).or_default() += 1;
        }
    }
    fn write(&mut self, kind: &str, call: &Call, want: &Answer) {
        let draws = match call.by {
            By::Draws => &call.draws[..],
            By::Seed(seed) => &[seed],
            By::DefaultSeed => &[],
        };
        let mut words: Vec<u64> = [call.rows, call.cols, call.repeat, call.book.len(), draws.len()].map(|x| x as u64).to_vec();
        words.extend(call.lent[..6].iter().map(|&x| x as u64));
        words.push(self.count(kind));
        words.extend(call.book.iter().map(|x| x.to_bits()));
        words.extend(draws);
        words.extend(want.told.map(|x| x as u64));
        match &want.outputs {
            Some(lists) => lists.iter().for_each(|list| words.extend(list)),
            None => {
                for (length, mark) in call.lent.iter().zip([NUMBER, NUMBER, DOUBLE, DOUBLE]) {
                    words.extend(vec![mark; *length]);
                }
            }
        }
        if !self.quiet {
            words.iter().for_each(|w| println!("{w:016x}"));
        }
        if want.outputs.is_some() {
            self.groupings += 1;
            self.grouped.insert(bits_of(&call.book));
        }
        self.count_traits(call, want);
    }
    /// Writes a call with room behind the working lists, as it must be answered.
    fn call(&mut self, kind: &str, call: &Call) {
        let mut call = call.clone();
        call.lent[4] += 3;
        call.lent[5] += 2;
        let want = expected(&call);
        self.write(kind, &call, &want);
    }
    fn has(&self, kind: &str) -> usize {
        self.kinds.iter().find(|k| k.0 == kind).map_or(0, |k| k.1)
    }
}

/// Whether a run drew an index in place of a share: the first draw of each seeding is an index, another is only where no weight is above 0.
fn indexes_for_shares(call: &Call, control: &Control) -> bool {
    let seedings: usize = control.rounds.iter().map(|&m| call.repeat * ((m as usize - 1).max(2) - 1)).sum();
    control.kinds.iter().filter(|k| matches!(k, Kind::Index(_))).count() > seedings
}

/// Whether the first index below n takes a second word of the generator, and whether that adds 1 to it.
fn second_word(seed: u64, n: usize) -> [bool; 2] {
    use rand::real::{Rng, RngExt, SeedableRng, StdRng};
    let product = u64::from(StdRng::seed_from_u64(seed).next_u32()) * n as u64;
    let index = StdRng::seed_from_u64(seed).random_range(0..n) as u64;
    [product as u32 > (n as u32).wrapping_neg(), index > product >> 32]
}

/// The seed of a call.
fn seed_of(call: &Call) -> u64 {
    match call.by {
        By::Seed(seed) => seed,
        _ => 42,
    }
}

/// What a grouping by a seed has, in words.
fn of_seed(call: &Call, control: &Control) -> Vec<String> {
    let mut traits = vec![if call.by == By::DefaultSeed { "groupings by get_onc_clusters".into() } else { "groupings by get_onc_clusters_with_seed".into() }];
    if indexes_for_shares(call, control) {
        traits.push("groupings with an index in place of a share".into());
    }
    let [second, carry] = second_word(seed_of(call), call.rows);
    if second {
        traits.push(format!("groupings whose first index takes a second word, {} 1", if carry { "and adds" } else { "without adding" }));
    }
    traits
}

/// A seeded run: the call that replays it, and the names of each of its rounds.
fn seeded_by(seed: u64, book: Vec<f64>, n: usize, repeat: usize) -> (Call, Vec<u64>) {
    let (_, control) = by_rust(&book, n, repeat, Source::Seeded, seed);
    (Call::proper(book, n, repeat, control.draws), control.rounds)
}

fn seeded(r: &mut Random, book: Vec<f64>, n: usize, repeat: usize) -> (Call, Vec<u64>) {
    seeded_by(r.bits(), book, n, repeat)
}

/// A partition as its order and its sizes.
fn listed(clusters: &BTreeMap<usize, Vec<usize>>, n: usize) -> [Vec<u64>; 2] {
    let order = clusters.values().flatten().map(|&i| i as u64).collect();
    let mut sizes: Vec<u64> = clusters.values().map(|g| g.len() as u64).collect();
    sizes.resize(n, 0);
    [order, sizes]
}

/// Of a run of two rounds, its first round's base, and the partition with the weak groups clustered again.
fn reclustered(call: &Call) -> [open::State; 2] {
    let (n, repeat) = (call.rows, call.repeat);
    let rows = matrix(&call.book, n);
    install(Control::new(Source::List(call.draws.clone()), repeat as u64, 32));
    let mut rng = StdRng::seed_from_u64(0);
    let base = open::base(&rows, (n - 1).max(2), repeat, &mut rng).unwrap();
    let quality = |group: &Vec<usize>| open::tstat(&group.iter().map(|&i| base.scores[i]).collect::<Vec<f64>>());
    let average = base.clusters.values().map(quality).sum::<f64>() / base.clusters.len() as f64;
    let (weak, strong): (BTreeMap<_, _>, BTreeMap<_, _>) = base.clusters.clone().into_iter().partition(|(_, group)| quality(group) < average);
    let redo: Vec<usize> = weak.into_values().flatten().collect();
    let inner = open::base(&open::submatrix(&rows, &redo), (redo.len() - 1).max(2), repeat, &mut rng).unwrap();
    install(Control::plain());
    let again = inner.clusters.into_iter().map(|(k, group)| (k, group.into_iter().map(|i| redo[i]).collect())).collect();
    let new = open::improve(&rows, &strong, &again).unwrap();
    [base, new]
}

/// Of a run of two rounds, whether its re-clustering was kept: then it answers the partition with the weak groups clustered again, else its
/// first round's base. None where the two partitions are equal, or the run has no grouping.
fn kept(call: &Call) -> Option<bool> {
    let [order, sizes, _, _] = expected(call).outputs?;
    let [old, new] = reclustered(call).map(|s| listed(&s.clusters, call.rows));
    if new == old {
        return None;
    }
    let found = [order, sizes];
    assert!(found == new || found == old, "the answer is neither partition");
    Some(found == new)
}

/// The examples that the source publishes of its grouping, with the groups that it names for them, by their least members; with the draws of the
/// seeded runs, or by these seeds.
fn published(w: &mut Recorder, by_seed: bool, seeds: &[u64]) {
    let book = |n: usize, group: &dyn Fn(usize) -> usize, within: f64, across: f64| {
        let cell = |i: usize, j: usize| if i == j { 1.0 } else if group(i) == group(j) { within } else { across };
        (0..n * n).map(|c| cell(c / n, c % n)).collect::<Vec<f64>>()
    };
    let threes = book(6, &|i| i / 3, 0.8, 0.1);
    let parities = book(6, &|i| i % 2, 0.9, 0.0);
    let fours = book(12, &|i| i / 4, 0.7, 0.1);
    let mut run = |kind: &str, book: &[f64], repeat: usize, seed: u64, groups: &[&[u64]]| {
        let (call, _) = seeded_by(seed, book.to_vec(), book.len().isqrt(), repeat);
        let call = if by_seed { call.taking(by(seed)) } else { call };
        let [order, sizes, scores, _] = expected(&call).outputs.expect("the source has a grouping");
        let mut found: Vec<&[u64]> = Vec::new();
        for &size in sizes.iter().filter(|&&size| size > 0) {
            let from = found.iter().map(|g| g.len()).sum::<usize>();
            found.push(&order[from..from + size as usize]);
        }
        found.sort();
        assert_eq!(found, groups, "{kind}: not the groups that the source names");
        w.call(kind, &call);
        scores
    };
    let scores = run("two blocks of three names, the source's example", &threes, 3, 42, &[&[0, 1, 2], &[3, 4, 5]]);
    assert!(scores.iter().all(|&s| f64::from_bits(s) > 0.5), "a score that the source calls greater than 0.5");
    run("even and odd names, the source's example", &parities, 2, 42, &[&[0, 2, 4], &[1, 3, 5]]);
    for &seed in seeds {
        run("three blocks of four names, the source's example", &fours, 5, seed, &[&[0, 1, 2, 3], &[4, 5, 6, 7], &[8, 9, 10, 11]]);
    }
    let none = Call::proper(parities, 6, 0, vec![]);
    w.call("even and odd names without repeats, the source's example", &none.taking(if by_seed { By::DefaultSeed } else { By::Draws }));
}

/// Worked examples, and refusals before the run.
fn chosen(w: &mut Recorder) {
    let ones = |n: usize| vec![1.0; n * n];
    let proper = Call::proper;
    w.call("all ones", &proper(ones(2), 2, 1, vec![0, 0, 0]));
    w.call("all ones, a draw out of range", &proper(ones(2), 2, 1, vec![2, 0, 0]));
    w.call("all ones, two draws", &proper(ones(2), 2, 1, vec![0, 0]));
    w.call("no repeats, 1 by 1", &proper(ones(1), 1, 0, vec![]));
    w.call("1 by 1", &proper(ones(1), 1, 1, vec![0]));
    w.call("all NaN", &proper(vec![f64::NAN; 4], 2, 1, vec![0, 0, 0]));
    w.call("two names apart", &proper(vec![1.0, 0.0, 0.0, 1.0], 2, 1, vec![0, 0, 1 << 52]));
    published(w, false, &[42, 0, 1, 2, 3, 4]);
    refusals(w, By::Draws);
}

/// Refusals before the run, and calls just within the limits.
fn refusals(w: &mut Recorder, by: By) {
    for (rows, kind) in [(0, "no rows"), (256, "256 rows, no cells"), (257, "257 rows"), (usize::MAX, "2^64 - 1 rows")] {
        let lent = [0, 0, 0, 0, 9, 9, 4];
        let call = Call { book: vec![], rows, cols: rows, repeat: 1, draws: vec![0; 3], by: By::Draws, lent }.taking(by);
        w.write(kind, &call, &expected(&call));
    }
    let good = Call::proper(vec![1.0, 0.25, 0.25, 1.0], 2, 1, vec![0, 1, 5]).taking(by);
    for (repeat, kind) in [(0, "no repeats"), (64, "64 repeats, too few draws"), (65, "65 repeats")] {
        if by == By::Draws || repeat != 64 {
            w.call(kind, &Call { repeat, ..good.clone() });
        }
    }
    w.call("64 repeats", &Call { repeat: 64, draws: (0..192).map(|i| i % 2).collect(), ..good.clone() }.taking(by));
    w.call("not square", &Call { cols: 3, ..good.clone() });
    w.call("a cell too few", &Call { book: vec![1.0; 3], ..good.clone() });
    w.call("a cell too many", &Call { book: vec![1.0; 5], ..good.clone() });
    for which in 0..6 {
        for by in [-1, 1] {
            let mut wrong = good.clone();
            wrong.lent[which] = wrong.lent[which].checked_add_signed(by).unwrap();
            w.write("a list of another length", &wrong, &expected(&wrong));
        }
    }
    if by == By::Draws {
        w.call("no draws", &Call { draws: vec![], ..good });
    }
}

/// Every kind of book at several sizes, by seeded runs of one repeat and of more.
fn every_kind(w: &mut Recorder, r: &mut Random) {
    for round in 0..5 {
        for kind in 0..KINDS {
            let n = 2 + (kind + 5 * round) % 6;
            let repeat = if round < 3 { 1 } else { 2 + kind % 2 };
            let book = of_kind(r, kind, n);
            let (call, rounds) = seeded(r, book, n, repeat);
            if rounds.len() <= 4 {
                w.call(if repeat == 1 { "every kind of book" } else { "every kind of book, repeats" }, &call);
            }
        }
    }
    for kind in 0..4 {
        let book = of_kind(r, kind, 12);
        let (call, rounds) = seeded(r, book, 12, 1);
        if rounds.len() <= 4 {
            w.call("12 names", &call);
        }
    }
}

/// Runs of two rounds and more, with their re-clusterings kept and not; and what ends such a run.
fn several_rounds(w: &mut Recorder, r: &mut Random) {
    let enough = [("re-clustering kept", 40), ("re-clustering not kept", 40), ("three rounds", 16)];
    let mut ends = 0;
    while enough.iter().any(|&(kind, most)| w.has(kind) < most) {
        let n = r.one_of(&[5, 6, 6, 7, 7, 8]);
        let repeat = r.one_of(&[1, 1, 1, 1, 2]);
        let book = made_up(r, n);
        let (call, rounds) = seeded(r, book, n, repeat);
        let kind = match rounds.len() {
            2 => match kept(&call) {
                Some(true) => 0,
                Some(false) => 1,
                None => continue,
            },
            3 => 2,
            _ => continue,
        };
        let (kind, most) = enough[kind];
        if w.has(kind) >= most {
            continue;
        }
        w.call(kind, &call);
        let first = repeat * rand::count(n as u64) as usize;
        let (most, m) = (call.draws.len(), rounds[1]);
        let mut other = call.clone();
        let kind = match ends % 6 {
            0 => {
                other.draws.truncate(r.from(first, most - 1));
                "too few for the second round"
            }
            1 => {
                other.draws[first] = m;
                "an index of the second round out of range"
            }
            2 => {
                other.draws[r.from(first, most - 1)] = u64::MAX;
                "a later draw out of range"
            }
            3 => {
                other.draws.truncate(first - 1);
                "too few for the first round"
            }
            4 => {
                other.draws.extend([u64::MAX, 0, 1]);
                "draws behind those read"
            }
            _ => {
                let place = r.below(first);
                other.draws[place] = r.one_of(&[n as u64, n as u64 - 1, 1 << 53, (1 << 53) - 1]);
                "a draw of the first round at a limit"
            }
        };
        ends += 1;
        w.call(kind, &other);
    }
    for _ in 0..2 {
        let (call, rounds) = seeded(r, pairs(3), 6, 1);
        assert!(rounds.len() == 32);
        w.call("a 33rd round would start", &call);
    }
}

/// Groupings of four rounds and of five, which few books have: books of 8 to 12 names are tried until there are enough.
fn many_rounds(w: &mut Recorder, r: &mut Random) {
    let enough = [(4, "four rounds", 5), (5, "five rounds", 3)];
    while enough.iter().any(|&(_, kind, most)| w.has(kind) < most) {
        let n = r.from(8, 12);
        let (_, book) = named(r, n);
        let (call, rounds) = seeded(r, book, n, 1);
        for (count, kind, most) in enough {
            if rounds.len() == count && w.has(kind) < most && expected(&call).outputs.is_some() {
                w.call(kind, &call);
            }
        }
    }
}

/// Books of 2 to 4 names of every kind that are not recorded yet, until so many distinct books have a grouping.
fn small_books(w: &mut Recorder, r: &mut Random, enough: usize) {
    for turn in 0.. {
        for kind in 0..KINDS {
            let n = 2 + (kind + turn) % 3;
            let repeat = if turn % 4 == 3 { 2 } else { 1 };
            let book = of_kind(r, kind, n);
            if w.grouped.contains(&bits_of(&book)) {
                continue;
            }
            let (call, rounds) = seeded(r, book, n, repeat);
            if rounds.len() <= 4 {
                w.call(if repeat == 1 { "small books" } else { "small books, repeats" }, &call);
            }
        }
        if w.grouped.len() >= enough {
            break;
        }
    }
}

/// Books with holes whose re-clustering has a NaN among its scores, and is not kept: a name's NaN cell stands in the column of a strong group,
/// so that the inner book does not have it. Blocks with one NaN cell are tried until there are enough.
fn holes(w: &mut Recorder, r: &mut Random) {
    let kind = "re-clustering with a NaN among its scores";
    while w.has(kind) < 6 {
        let n = r.from(5, 8);
        let mut book = of_kind(r, 1, n);
        book[r.below(n * n)] = f64::NAN;
        let (call, rounds) = seeded(r, book, n, 1);
        if rounds.len() == 2 && expected(&call).outputs.is_some() && reclustered(&call)[1].scores.iter().any(|s| s.is_nan()) {
            assert!(kept(&call) == Some(false), "a re-clustering with a NaN is kept");
            w.call(kind, &call);
        }
    }
}

/// Seeds at the ends of their range and of a word, the default, and those of crates/test_streams whose first index takes a second word.
const SEEDS: [u64; 8] = [0, 1, 42, 1 << 32, u64::MAX, 500346866, 137173759, 1220054703];

/// How a call takes its draws by a seed: of 42 by `get_onc_clusters`.
fn by(seed: u64) -> By {
    if seed == 42 {
        By::DefaultSeed
    } else {
        By::Seed(seed)
    }
}

/// A run by a seed: its call, that which replays it, and the names of each of its rounds.
fn run_by(seed: u64, book: Vec<f64>, n: usize, repeat: usize) -> (Call, Call, Vec<u64>) {
    let (replay, rounds) = seeded_by(seed, book, n, repeat);
    (replay.taking(by(seed)), replay, rounds)
}

/// Runs by a seed: the source's examples and refusals; every kind of book, by chosen seeds and by any; one book by each chosen seed, and by 42 with
/// both calls.
fn by_seeds(w: &mut Recorder, r: &mut Random) {
    published(w, true, &[42, 0, 4]);
    refusals(w, By::Seed(3));
    w.call("1 by 1", &Call::proper(vec![1.0], 1, 1, vec![]).taking(By::DefaultSeed));
    for round in 0..3 {
        for kind in 0..KINDS {
            let (n, repeat) = (2 + (kind + 5 * round) % 6, 1 + (kind + round) % 3);
            let seed = if round < 2 { SEEDS[(kind + 3 * round) % SEEDS.len()] } else { r.bits() };
            let (call, _, rounds) = run_by(seed, of_kind(r, kind, n), n, repeat);
            if rounds.len() <= 4 {
                w.call(if round < 2 { "every kind of book, a chosen seed" } else { "every kind of book, any seed" }, &call);
            }
        }
    }
    for seed in SEEDS {
        let book = of_kind(&mut Random::new(9), 1, 8);
        w.call("one book of 8 names by each seed", &run_by(seed, book, 8, 2).0);
    }
    w.call("42 by get_onc_clusters_with_seed", &Call::proper(of_kind(&mut Random::new(9), 1, 8), 8, 2, vec![]).taking(By::Seed(42)));
}

/// First indexes that take a second word, which adds 1 or does not, on books of so many names; and indexes in place of shares, since no weight is
/// above 0.
fn second_words(w: &mut Recorder, r: &mut Random) {
    for (seed, n, adds) in [(500346866, 3, true), (1220054703, 3, false), (137173759, 5, true)] {
        assert!(second_word(seed, n) == [true, adds], "a first index of other words");
        for kind in 0..3 {
            let book = of_kind(r, kind, n);
            w.call("a first index of two words", &run_by(seed, book, n, 1 + kind).0);
        }
    }
    for (n, seed) in [2, 3, 5, 8].into_iter().zip(SEEDS) {
        for seed in [seed, r.bits()] {
            let (call, _, _) = run_by(seed, vec![r.one_of(&[1.0, 0.5, f64::NAN]); n * n], n, 2);
            assert!(indexes_for_shares(&call, &rust_of(&call).1), "a share though all names are alike");
            w.call("all cells equal, indexes in place of shares", &call);
        }
    }
}

/// Runs by any seed of two rounds and more, a 33rd round, and 12 names.
fn rounds_by_seeds(w: &mut Recorder, r: &mut Random) {
    let enough = [("re-clustering kept", 5), ("re-clustering not kept", 5), ("three rounds", 4), ("four rounds", 2)];
    while enough.iter().any(|&(kind, most)| w.has(kind) < most) {
        let n = r.one_of(&[5, 6, 7, 8]);
        let book = made_up(r, n);
        let (call, replay, rounds) = run_by(r.bits(), book, n, r.one_of(&[1, 1, 2]));
        let which = match (rounds.len(), rust_of(&call).0.outputs.is_some()) {
            (2, true) => match kept(&replay) {
                Some(kept) => usize::from(!kept),
                None => continue,
            },
            (rounds @ 3..=4, true) => rounds - 1,
            _ => continue,
        };
        let (kind, most) = enough[which];
        if w.has(kind) < most {
            w.call(kind, &call);
        }
    }
    for seed in [42, 1 << 32, r.bits()] {
        let (call, _, rounds) = run_by(seed, pairs(3), 6, 1);
        assert!(rounds.len() == 32);
        w.call("a 33rd round would start", &call);
    }
    for (kind, seed) in [0, 1, 1, 2].into_iter().zip([500346866, 42, u64::MAX, r.bits()]) {
        let book = of_kind(r, kind, 12);
        w.call("12 names", &run_by(seed, book, 12, 1).0);
    }
}

fn main() {
    silence();
    let what = std::env::args().nth(1).unwrap_or_default();
    let quiet = what.ends_with("kinds");
    let mut w = Recorder { quiet, ..Recorder::default() };
    if what.starts_with("seed") {
        let mut r = Random::new(6);
        by_seeds(&mut w, &mut r);
        second_words(&mut w, &mut r);
        rounds_by_seeds(&mut w, &mut r);
    } else {
        let mut r = Random::new(5);
        chosen(&mut w);
        every_kind(&mut w, &mut r);
        several_rounds(&mut w, &mut r);
        many_rounds(&mut w, &mut r);
        small_books(&mut w, &mut r, 322);
        holes(&mut w, &mut r);
    }
    if !quiet {
        return;
    }
    println!("The kinds of the recorded runs: number, runs, name.");
    for (place, (kind, runs)) in w.kinds.iter().enumerate() {
        println!("{:4} {runs:4}  {kind}", place + 1);
    }
    println!("In all {} runs, {} of them groupings, of {} distinct books; by what they answer and have:", w.kinds.iter().map(|k| k.1).sum::<usize>(), w.groupings, w.grouped.len());
    for (name, runs) in &w.traits {
        println!("     {runs:4}  {name}");
    }
}
