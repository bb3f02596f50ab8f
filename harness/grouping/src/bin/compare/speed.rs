//! Both sides in one process, on the same block books with noise and the same draws, one repeat: whole runs, the phases of their first
//! round, one after the other for every k, and whole runs by a seed. The t-stats are counted to the silhouettes.
use crate::library::{onc_book_pairs, onc_lloyd_in, onc_scores_in, onc_seed_in, onc_tstat_of, Lists};
use grouping_harness::call::{bits, by_rust, Answer, By, Call};
use kmeans_harness::books::{block_correlations, matrix};
use kmeans_harness::random::Random;
use openquant::onc::get_onc_clusters_with_seed;
use openquant::onc_leaf::open::{self, DMatrix};
use rand::{install, rngs::StdRng, Control, SeedableRng, Source};
use std::hint::black_box;
use std::time::Instant;

const NAMES: [usize; 5] = [12, 20, 50, 100, 256];
/// The sizes of the runs by a seed.
const BY_SEED: [usize; 7] = [5, 8, 12, 20, 50, 100, 256];
const PHASES: [&str; 4] = ["distances", "seeding", "Lloyd", "silhouettes"];
const SEED: u64 = 42;

/// A book, the draws of a seeded run on it, what the run gives, and how many rounds it has.
struct Case {
    rows: DMatrix<f64>,
    call: Call,
    want: Answer,
    rounds: usize,
}

fn case(n: usize) -> Case {
    // the books of all sizes come from one stream, so that a size has the same book in every mode
    let mut r = Random::new(1);
    let mut books = NAMES.into_iter().chain([5, 8]).map(|m| block_correlations(&mut r, m, (m / 8).max(2), 0.2));
    let book = books.find(|book| book.len() == n * n).expect("5, 8, 12, 20, 50, 100 or 256 names");
    let (want, control) = by_rust(&book, n, 1, Source::Seeded, SEED);
    let rows = matrix(&book, n);
    Case { rows, call: Call::proper(book, n, 1, control.draws), want, rounds: control.rounds.len() }
}

/// Least, middle and greatest of several times, in milliseconds.
#[derive(Clone, Copy)]
struct Times([f64; 3]);

impl Times {
    fn of(mut times: Vec<f64>) -> Times {
        times.sort_by(f64::total_cmp);
        Times([times[0], times[times.len() / 2], times[times.len() - 1]])
    }
    fn middle(self) -> f64 {
        self.0[1]
    }
    fn text(self) -> String {
        let [least, middle, greatest] = self.0.map(|x| format!("{x:.*}", [3, 2, 1, 0][(x * 10.0).log10().clamp(0.0, 3.0) as usize]));
        format!("{middle} ({least} to {greatest})")
    }
}

/// A tool that counts instructions looks at what runs inside this function alone.
#[no_mangle]
#[inline(never)]
fn counted(run: &mut dyn FnMut()) {
    run();
}

/// What is done with runs one after the other: all are timed, in milliseconds; or one of them is counted, with so many before it.
enum Meter {
    Clock(Vec<f64>),
    Count { before: usize },
}

impl Meter {
    fn run<T>(&mut self, run: impl FnOnce() -> T) -> T {
        match self {
            Meter::Clock(times) => {
                let began = Instant::now();
                let found = black_box(run());
                times.push(began.elapsed().as_secs_f64() * 1e3);
                found
            }
            Meter::Count { before: 0 } => {
                *self = Meter::Clock(Vec::new());
                let (mut run, mut found) = (Some(run), None);
                counted(&mut || found = run.take().map(|run| run()));
                found.unwrap()
            }
            Meter::Count { before } => {
                *before -= 1;
                run()
            }
        }
    }
    fn times(self) -> Vec<f64> {
        let Meter::Clock(times) = self else { unreachable!() };
        times
    }
}

/// A whole run on the Rust, which draws with the seed of the recorded run; whether it has the recorded groups.
fn rust_run(case: &Case, meter: &mut Meter) -> bool {
    install(Control::plain());
    let found = meter.run(|| get_onc_clusters_with_seed(black_box(&case.rows), 1, SEED));
    found.is_ok_and(|found| found.clusters.len() == case.want.told[2])
}

/// The same on the library, by a call of the case; whether answer and outputs are the recorded ones.
fn library_run(case: &Case, call: &Call, lists: &mut Lists, meter: &mut Meter) -> bool {
    meter.run(|| lists.run(black_box(call)));
    lists.hold(&case.want)
}

/// Whole runs: the times of the Rust and of the library, and whether each answer was the recorded one.
fn whole(case: &Case, runs: usize) -> ([Times; 2], bool) {
    let mut lists = Lists::new(&case.call);
    let (mut rust, mut library, mut equal) = (Meter::Clock(Vec::new()), Meter::Clock(Vec::new()), true);
    for _ in 0..runs {
        equal &= rust_run(case, &mut rust) && library_run(case, &case.call, &mut lists, &mut library);
    }
    ([rust, library].map(|meter| Times::of(meter.times())), equal)
}

/// Whole runs by a seed: the times of the Rust, of the library on the list of the draws, and of the library by the seed, one after the other in
/// each turn, a turn starting with another; and whether each answer was the recorded one.
fn whole_by_seed(case: &Case, runs: usize) -> ([Times; 3], bool) {
    let seeded = case.call.taking(By::Seed(SEED));
    let mut lists = Lists::new(&case.call);
    let (mut meters, mut equal) = ([(); 3].map(|_| Meter::Clock(Vec::new())), true);
    for turn in 0..runs {
        for side in (0..3).map(|i| (turn + i) % 3) {
            let meter = &mut meters[side];
            equal &= match side {
                0 => rust_run(case, meter),
                1 => library_run(case, &case.call, &mut lists, meter),
                _ => library_run(case, &seeded, &mut lists, meter),
            };
        }
    }
    (meters.map(|meter| Times::of(meter.times().iter().map(|ms| ms * 1e3).collect())), equal)
}

/// What the candidates of a round are: centres, labels, scores and t-stat of each, doubles as their bits.
type Candidates = [Vec<Vec<u64>>; 4];

fn candidates(centres: Vec<Vec<usize>>, labels: Vec<Vec<usize>>, scores: Vec<Vec<f64>>, stats: Vec<f64>) -> Candidates {
    let numbers = |lists: Vec<Vec<usize>>| lists.into_iter().map(|list| list.into_iter().map(|x| x as u64).collect()).collect();
    let doubles = |lists: Vec<Vec<f64>>| lists.into_iter().map(|list| list.into_iter().map(bits).collect()).collect();
    [numbers(centres), numbers(labels), doubles(scores), doubles(vec![stats])]
}

/// The phases of the first round on the Rust.
fn rust_round(case: &Case, meter: &mut Meter) -> Candidates {
    let n = case.call.rows;
    install(Control::plain());
    let mut rng = StdRng::seed_from_u64(SEED);
    let (points, pairwise) = meter.run(|| {
        let points = open::prepare(&open::corr_to_distance(black_box(&case.rows)));
        let pairwise = open::pairwise_distances_of(&points);
        (points, pairwise)
    });
    let centres: Vec<_> = meter.run(|| (2..n).map(|k| open::kmeans_plus_plus_of(&points, k, &mut rng)).collect());
    let labels: Vec<_> = meter.run(|| centres.iter().map(|c| open::lloyd_of(&points, c)).collect());
    let score = |labels: &Vec<usize>| {
        let scores = open::silhouette_from_pairwise(&pairwise, labels);
        let stat = open::tstat(&scores);
        (scores, stat)
    };
    let (scores, stats) = meter.run(|| labels.iter().map(score).unzip());
    candidates(centres, labels, scores, stats)
}

/// The same on the inner forms of the library.
fn library_round(case: &Case, meter: &mut Meter) -> Candidates {
    let Call { book, draws, .. } = &case.call;
    let n = case.call.rows;
    let rows: Vec<usize> = (0..n).collect();
    let (mut area, mut weights) = (vec![0.0; 5 * n * n], vec![0.0; n]);
    let (a, al) = (area.as_mut_ptr(), area.len());
    meter.run(|| unsafe { onc_book_pairs(book.as_ptr(), book.len(), n, rows.as_ptr(), n, a, 4 * n * n) });
    let mut at = 0;
    let seed = |k: usize| {
        let mut centres = vec![0usize; k];
        at = unsafe { onc_seed_in(a, al, n, draws.as_ptr(), draws.len(), at, centres.as_mut_ptr(), k, weights.as_mut_ptr(), n) };
        assert!(at > 0, "a draw out of range");
        centres
    };
    let centres: Vec<_> = meter.run(|| (2..n).map(seed).collect());
    let group = |centres: &Vec<usize>| {
        let mut labels = vec![0usize; n];
        unsafe { onc_lloyd_in(a, al, n, centres.as_ptr(), centres.len(), labels.as_mut_ptr(), n) };
        labels
    };
    let labels: Vec<_> = meter.run(|| centres.iter().map(group).collect());
    let score = |(labels, k): (&Vec<usize>, usize)| {
        let mut scores = vec![0.0; n];
        unsafe { onc_scores_in(a, al, n, labels.as_ptr(), n, k, scores.as_mut_ptr(), n) };
        let stat = unsafe { onc_tstat_of(scores.as_ptr(), n) };
        (scores, stat)
    };
    let (scores, stats) = meter.run(|| labels.iter().zip(2..).map(score).unzip());
    candidates(centres, labels, scores, stats)
}

/// The phases of the first round and, last, their sum: of the Rust and of the library; and whether all candidates are the same.
fn phases(case: &Case, runs: usize) -> ([Vec<Times>; 2], bool) {
    let (mut rust, mut library, mut equal) = (Meter::Clock(Vec::new()), Meter::Clock(Vec::new()), true);
    for _ in 0..runs {
        equal &= rust_round(case, &mut rust) == library_round(case, &mut library);
    }
    let by_phase = |meter: Meter| {
        let times = meter.times();
        let of = |phase: usize| Times::of(times.iter().skip(phase).step_by(4).copied().collect());
        let sum = Times::of(times.chunks(4).map(|round| round.iter().sum()).collect());
        (0..4).map(of).chain([sum]).collect()
    };
    ([rust, library].map(by_phase), equal)
}

/// How many times runs are taken of a size.
fn times_of(n: usize, runs: usize) -> usize {
    match n {
        0..=50 => 10 * runs,
        51..=100 => runs,
        _ => runs.min(3),
    }
}

/// The same for runs by a seed: a run of 12 names takes microseconds, so there are more of them.
fn times_by_seed(n: usize, runs: usize) -> usize {
    match n {
        0..=12 => 400 * runs,
        13..=20 => 100 * runs,
        _ => times_of(n, runs),
    }
}

/// The limits in docs/SPEED.md are counted in cycles. Nanoseconds of a cycle, by a chain of integer products, which take 3 cycles each; and of an addition
/// of doubles that waits for another.
fn cycle_and_addition() -> [f64; 2] {
    const STEPS: u32 = 100_000;
    let least = |chain: &dyn Fn()| {
        let times = (0..1000).map(|_| {
            let began = Instant::now();
            chain();
            began.elapsed().as_nanos() as f64 / f64::from(STEPS)
        });
        times.fold(f64::INFINITY, f64::min)
    };
    let product = least(&|| {
        black_box((0..STEPS).fold(1u64, |x, _| x.wrapping_mul(black_box(3))));
    });
    let one = black_box(1.0);
    let addition = least(&|| {
        black_box((0..STEPS).fold(0.0, |x, _| x + one));
    });
    [product / 3.0, addition]
}

fn answers(equal: bool) -> &'static str {
    if equal {
        "equal"
    } else {
        "DIFFER"
    }
}

/// The table of whole runs by a seed; whether all answers are equal.
pub fn time_seeds(runs: usize) -> bool {
    let mut right = true;
    println!("Whole runs of one repeat by the seed {SEED}, microseconds: median (least to greatest)\n");
    println!("| names | rounds | draws | runs | Rust | library, by the list of draws | library, by the seed | Rust to list | Rust to seed | answers |");
    println!("|---|---|---|---|---|---|---|---|---|---|");
    for case in BY_SEED.map(case) {
        let (n, runs) = (case.call.rows, times_by_seed(case.call.rows, runs));
        let ([rust, list, seed], equal) = whole_by_seed(&case, runs);
        right &= equal;
        let [to_list, to_seed] = [list, seed].map(|side| rust.middle() / side.middle());
        let sides = [rust, list, seed].map(Times::text).join(" | ");
        println!("| {n} | {} | {} | {runs} | {sides} | {to_list:.1} | {to_seed:.1} | {} |", case.rounds, case.call.draws.len(), answers(equal));
    }
    right
}

pub fn time(runs: usize) -> bool {
    let cases = NAMES.map(case);
    let mut right = true;
    println!("Milliseconds: median (least to greatest).\n\nWhole runs of one repeat\n");
    println!("| names | rounds | runs | Rust | library | ratio | answers |\n|---|---|---|---|---|---|---|");
    let whole_runs = cases.each_ref().map(|case| {
        let (n, runs) = (case.call.rows, times_of(case.call.rows, runs));
        let ([rust, library], equal) = whole(case, runs);
        right &= equal;
        let ratio = rust.middle() / library.middle();
        println!("| {n} | {} | {runs} | {} | {} | {ratio:.1} | {} |", case.rounds, rust.text(), library.text(), answers(equal));
        [rust, library].map(Times::middle)
    });
    println!("\nThe first round, by phase\n");
    println!("| names | phase | Rust | library | ratio | of the library's round | answers |\n|---|---|---|---|---|---|---|");
    let rounds = cases.each_ref().map(|case| {
        let n = case.call.rows;
        let ([rust, library], equal) = phases(case, times_of(n, runs));
        right &= equal;
        for (i, phase) in PHASES.iter().chain([&"all four"]).enumerate() {
            let (ratio, share) = (rust[i].middle() / library[i].middle(), 100.0 * library[i].middle() / library[4].middle());
            println!("| {n} | {phase} | {} | {} | {ratio:.1} | {share:.0} % | {} |", rust[i].text(), library[i].text(), answers(equal));
        }
        [rust, library].map(|side| side.into_iter().map(Times::middle).collect::<Vec<_>>())
    });
    println!("\nHow many times longer from one size to the next\n");
    println!("| names | n^3 | n^4 | Rust, run | library, run | Rust, round | library, round | {} |", PHASES.map(|p| format!("library, {p}")).join(" | "));
    println!("|---|---|---|---|---|---|---|---|---|---|---|");
    for i in 1..NAMES.len() {
        let by = NAMES[i] as f64 / NAMES[i - 1] as f64;
        let mut row = vec![by.powi(3), by.powi(4)];
        row.extend((0..2).map(|side| whole_runs[i][side] / whole_runs[i - 1][side]));
        row.extend((0..2).map(|side| rounds[i][side][4] / rounds[i - 1][side][4]));
        row.extend((0..4).map(|phase| rounds[i][1][phase] / rounds[i - 1][1][phase]));
        println!("| {} to {} | {} |", NAMES[i - 1], NAMES[i], row.iter().map(|x| format!("{x:.1}")).collect::<Vec<_>>().join(" | "));
    }
    let [cycle, addition] = cycle_and_addition();
    println!("\nA cycle takes {cycle:.2} ns, an addition that waits for another {:.1} cycles.\n", addition / cycle);
    time_seeds(runs) && right
}

/// Both sides on a phase of the first round, or else on a whole run, one of them counted; whether their answers are the same.
pub fn count(side: &str, what: &str, n: usize) -> bool {
    let case = case(n);
    let phase = PHASES.iter().position(|&phase| phase == what);
    let (counting, other) = (&mut Meter::Count { before: phase.unwrap_or(0) }, &mut Meter::Clock(Vec::new()));
    let (rust, library) = if side == "rust" { (counting, other) } else { (other, counting) };
    match phase {
        Some(_) => rust_round(&case, rust) == library_round(&case, library),
        None => rust_run(&case, rust) && library_run(&case, &case.call, &mut Lists::new(&case.call), library),
    }
}
