//! Prints what the unchanged Rust answers by a seed, for the tests under bindings, which have these answers in them:
//!   SOURCES=dir harness/oracle/build.sh && cd harness/oracle && cargo run -q --release --example seeded
//! For each run the groups, the bits of the scores by name, and how many draws it made; for the four names the draws too. A run that would start a
//! 33rd round is shown as 9.
use nalgebra::DMatrix;
use openquant::onc::get_onc_clusters_with_seed;
use rand::{install, Control, Signal, Source};
use std::panic::{catch_unwind, set_hook, AssertUnwindSafe};

/// Four names in two pairs, 0.875 within a pair and 0.125 across.
fn pairs(i: usize, j: usize) -> f64 {
    match (i == j, i / 2 == j / 2) {
        (true, _) => 1.0,
        (_, true) => 0.875,
        _ => 0.125,
    }
}

/// Twelve names in six pairs, unevenly alike; every cell is a whole number of 64ths.
fn twelve(i: usize, j: usize) -> f64 {
    let pair = if i / 2 == j / 2 { 32 } else { 0 };
    if i == j {
        1.0
    } else {
        (pair + (3 * i * j + 9 * (i + j)) % 16) as f64 / 64.0
    }
}

/// Six names in three pairs, by which the rounds do not end.
fn endless(i: usize, j: usize) -> f64 {
    match (i == j, i / 2 == j / 2, i % 2 == 1 && j % 2 == 1) {
        (true, _, _) => 1.0,
        (_, true, _) => 0.875,
        (_, _, true) => 0.21875,
        _ => 0.0546875,
    }
}

fn main() {
    set_hook(Box::new(|_| {}));
    let runs: [(&str, usize, fn(usize, usize) -> f64, usize, u64); 8] = [
        ("pairs", 4, pairs, 1, 42),
        ("pairs", 4, pairs, 1, 0),
        ("twelve", 12, twelve, 1, 0),
        ("twelve", 12, twelve, 1, 7),
        ("twelve", 12, twelve, 1, 42),
        ("twelve", 12, twelve, 1, u64::MAX),
        ("twelve", 12, twelve, 2, 42),
        ("endless", 6, endless, 1, 42),
    ];
    for (book, n, cell, repeat, seed) in runs {
        println!("{book}: {n} names, repeat {repeat}, seed {seed}");
        install(Control::new(Source::Seeded, repeat as u64, 32));
        let run = catch_unwind(AssertUnwindSafe(|| get_onc_clusters_with_seed(&DMatrix::from_fn(n, n, cell), repeat, seed)));
        let control = install(Control::plain());
        match run {
            Ok(Ok(found)) => {
                println!("  groups {:?}", found.clusters.values().collect::<Vec<_>>());
                let scores: Vec<String> = found.silhouette_scores.iter().map(|x| format!("{:016x}", x.to_bits())).collect();
                println!("  scores {}", scores.join(" "));
                println!("  draws {} in rounds of {:?} names", control.taken, control.rounds);
                if n == 4 {
                    println!("  {:?}", control.draws);
                }
            }
            Ok(Err(error)) => println!("  {error:?}"),
            Err(payload) => match payload.downcast::<Signal>() {
                Ok(signal) if *signal == Signal::Rounds => println!("  9"),
                _ => panic!("the Rust panicked"),
            },
        }
    }
}
