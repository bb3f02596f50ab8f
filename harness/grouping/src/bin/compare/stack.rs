//! The library in a thread with a small stack: the deepest run and the widest, with draws and by a seed.
use crate::library::Lists;
use grouping_harness::books::pairs;
use grouping_harness::call::{by_rust, By, Call};
use kmeans_harness::books::block_correlations;
use kmeans_harness::random::Random;
use rand::Source;
use std::time::Instant;

fn on_stack(kib: usize, call: Call) -> [usize; 4] {
    let thread = std::thread::Builder::new().stack_size(kib << 10);
    let run = move || {
        let mut lists = Lists::new(&call);
        lists.run(&call);
        lists.told()
    };
    thread.spawn(run).unwrap().join().unwrap()
}

pub fn stack(kib: usize) -> bool {
    let deep = pairs(3);
    let (want, control) = by_rust(&deep, 6, 1, Source::Seeded, 42);
    assert!(want.told[0] == 9 && control.rounds.len() == 32);
    let deep = Call::proper(deep, 6, 1, control.draws);
    let mut r = Random::new(1);
    let n = 256;
    let book = block_correlations(&mut r, n, 16, 0.2);
    let need = 64 * rand::count(n as u64) as usize;
    // below 2 a draw is in range as an index and as a share
    let draws = (0..32 * need).map(|_| r.bits() % 2).collect();
    let wide = Call::proper(book, n, 64, draws);
    let mut right = true;
    let seed = By::Seed(42);
    for (kind, deep, wide) in [("by a seed", deep.taking(seed), wide.taking(seed)), ("with draws", deep, wide)] {
        let told = on_stack(kib, deep);
        println!("6 names, 32 rounds, {kind}, stack of {kib} KiB: number {} for 9", told[0]);
        let began = Instant::now();
        let found = on_stack(kib, wide);
        println!(
            "256 names, 64 repeats, {kind}, stack of {kib} KiB: number {}, {} groups, {} draws read, of which the first round takes {need}; {:.0} s",
            found[0],
            found[2],
            found[3],
            began.elapsed().as_secs_f64()
        );
        right &= told[0] == 9 && found[0] == 0;
    }
    right
}
