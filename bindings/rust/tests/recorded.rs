//! The recorded runs of crates/test_runs and, by a seed, of crates/test_seeds: every call but those that lend lists of wrong length, which this crate
//! cannot make.
use onc::{Grouper, Grouping, Refusal};

/// The words of the text, read one after the other. The layout stands in harness/grouping/src/bin/record.rs.
struct Words(std::vec::IntoIter<u64>);

impl Words {
    fn list(&mut self, length: usize) -> Vec<u64> {
        let list: Vec<u64> = self.0.by_ref().take(length).collect();
        assert_eq!(list.len(), length, "the text ends within a case");
        list
    }
}

fn sizes(words: &[u64]) -> Vec<usize> {
    words.iter().map(|&w| w as usize).collect()
}

/// The bits of a double, all NaNs as one.
fn bits(x: f64) -> u64 {
    if x.is_nan() {
        f64::NAN.to_bits()
    } else {
        x.to_bits()
    }
}

/// Calls every case of a crate by `call`, with its book, rows, cols, repeat and draws. How many groupings, refusals and calls with lists of wrong length there are.
fn recorded(folder: &str, mut call: impl FnMut(&[f64], usize, usize, usize, &[u64]) -> Result<Grouping, Refusal>) -> (usize, usize, usize) {
    let text = std::fs::read_to_string(format!("{}/../../crates/{folder}/stdin", env!("CARGO_MANIFEST_DIR"))).unwrap();
    let all: Vec<u64> = text.split_whitespace().map(|w| u64::from_str_radix(w, 16).unwrap()).collect();
    let mut words = Words(all.into_iter());
    let (mut groupings, mut refusals, mut lengths) = (0, 0, 0);
    while !words.0.as_slice().is_empty() {
        let head = sizes(&words.list(12));
        let [rows, cols, repeat, cells, draws] = head[..5] else { unreachable!() };
        let book: Vec<f64> = words.list(cells).into_iter().map(f64::from_bits).collect();
        let draws = words.list(draws);
        let told = sizes(&words.list(4));
        let outputs: Vec<Vec<u64>> = head[5..9].iter().map(|&length| words.list(length)).collect();
        if told[0] == 6 {
            lengths += 1;
            continue;
        }
        let case = groupings + refusals + lengths;
        match call(&book, rows, cols, repeat, &draws) {
            Ok(found) => {
                assert_eq!(told, [0, 0, found.len(), found.draws_read()], "case {case}");
                assert_eq!(sizes(&outputs[0]), found.order(), "case {case}");
                assert_eq!(sizes(&outputs[1])[..found.len()], *found.sizes(), "case {case}");
                assert!(outputs[2].iter().copied().eq(found.scores().iter().map(|&x| bits(x))), "case {case}");
                assert!(
                    outputs[3].iter().map(|&w| bits(f64::from_bits(w))).eq(found.ordered().iter().map(|&x| bits(x))),
                    "case {case}"
                );
                groupings += 1;
            }
            Err(refusal) => {
                assert_eq!(told, [refusal.number(), refusal.place().unwrap_or(0), 0, 0], "case {case}");
                refusals += 1;
            }
        }
    }
    (groupings, refusals, lengths)
}

#[test]
fn recorded_runs() {
    let mut grouper = Grouper::new();
    let counts = recorded("test_runs", |book, rows, cols, repeat, draws| {
        grouper.get_onc_clusters_with_draws(book, rows, cols, repeat, draws)
    });
    assert!(counts.0 > 200 && counts.1 > 50 && counts.2 > 0, "{counts:?}");
}

#[test]
fn recorded_runs_by_a_seed() {
    let mut grouper = Grouper::new();
    let mut by_default = 0;
    // one word in place of the draws is the seed; without it the call is the one that names none
    let counts = recorded("test_seeds", |book, rows, cols, repeat, draws| match draws {
        [] => {
            by_default += 1;
            grouper.get_onc_clusters(book, rows, cols, repeat)
        }
        &[seed] => grouper.get_onc_clusters_with_seed(book, rows, cols, repeat, seed),
        _ => panic!("a case has several seeds"),
    });
    assert!(
        counts.0 > 100 && counts.1 > 5 && counts.2 > 0 && by_default > 5,
        "{counts:?}, {by_default} by default"
    );
}
