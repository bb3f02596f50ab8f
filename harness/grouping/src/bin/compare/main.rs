//! Compares the proved library with the unchanged Rust, and times both. Usage: see run.sh.
//!   compare runs [SEED] [BOOKS]         BOOKS made-up books (20000), each by a seed and with several lists of draws; the status is 0 if none
//!                                       differs and each grouping is as `CertainClaim` says
//!   compare statistics [SEED] [CALLS]   the averages, the intake check and the counts of draws, CALLS made-up lists of each (3000)
//!   compare stack [KIB]                 a run of 256 names and 64 repeats, and one of 32 rounds, in a thread with a stack of KIB (1024); each with
//!                                       draws and by a seed
//!   compare time [RUNS]                 whole runs and their phases on the same books and draws, medians of RUNS runs (5); then the next table
//!   compare time-seeds [RUNS]           whole runs by a seed: the Rust, the library on the list of the draws, and the library by the seed
//!   compare count SIDE WHAT [NAMES]     for a tool that counts instructions: both sides on a phase or a whole run, one of them, rust or library, inside `counted`
mod certain;
mod library;
mod runs;
mod speed;
mod stack;
mod statistics;

fn main() {
    grouping_harness::call::silence();
    let args: Vec<String> = std::env::args().collect();
    let number = |i: usize, or: usize| args.get(i).map_or(or, |a| a.parse().unwrap());
    let right = match args[1].as_str() {
        "runs" => runs::runs(number(2, 7) as u64, number(3, 20_000)),
        "statistics" => statistics::statistics(number(2, 7) as u64, number(3, 3_000)),
        "stack" => stack::stack(number(2, 1024)),
        "time" => speed::time(number(2, 5)),
        "time-seeds" => speed::time_seeds(number(2, 5)),
        _ => speed::count(&args[2], &args[3], number(4, 50)),
    };
    std::process::exit(if right { 0 } else { 1 });
}
