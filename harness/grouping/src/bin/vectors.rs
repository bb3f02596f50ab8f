//! Puts the cases of the program `test_examples` through the unchanged Rust: run.sh vectors. The status is 0 if none differs but those below.
//! Standard input has the cases, in the layout of crates/test_examples/src/main.rt. Every case that is not refused is compared, bit for bit, all
//! NaNs as one; refusals are the table's, and the leaves of the Rust have none.
use grouping_harness::call::bits;
use kmeans_harness::books::matrix;
use openquant::onc_leaf::open::{self, DMatrix};
use openquant::util::stats;
use std::io::Read;

/// The leaves by their numbers, from 1.
const LEAVES: [&str; 15] = [
    "sqrt",
    "mean",
    "variance",
    "std_dev",
    "tstat",
    "mean_of",
    "squared_distance",
    "corr_to_distance",
    "corr_to_distance_through",
    "submatrix",
    "pairwise_distances",
    "pairwise_distances_through",
    "silhouette_from_pairwise",
    "squared_distance_through",
    "averages of 65,536 values",
];

/// What a leaf is asked: its number, n or ddof, two items, a list of doubles, and one of whole numbers or of the bits of doubles.
#[derive(PartialEq)]
struct Asked {
    leaf: usize,
    n: usize,
    items: [usize; 2],
    a: Vec<u64>,
    b: Vec<u64>,
}

struct Case {
    asked: Asked,
    refused: bool,
    values: Vec<u64>,
}

/// A case that differs, as docs/DIFFERENCES.md says, and by what: the bits of the values here and there.
struct Exception {
    what: &'static str,
    asked: Asked,
    here: Vec<u64>,
    there: Vec<u64>,
}

fn patterns(list: &[f64]) -> Vec<u64> {
    list.iter().map(|&x| bits(x)).collect()
}

fn doubles(list: &[u64]) -> Vec<f64> {
    list.iter().map(|&x| f64::from_bits(x)).collect()
}

/// Sums run from +0 here and from -0 there.
fn exceptions() -> [Exception; 4] {
    let one = |what, leaf, a: &[f64]| Exception {
        what,
        asked: Asked { leaf, n: 0, items: [0, 0], a: patterns(a), b: vec![] },
        here: patterns(&[0.0]),
        there: patterns(&[-0.0]),
    };
    let distances = [0.0, -0.0, -1.0, -0.0, 0.0, 1.0, -1.0, 1.0, 0.0];
    [
        one("mean_of of -0", 6, &[-0.0]),
        one("squared_distance of two empty lists", 7, &[]),
        one("squared_distance of 1 and an empty list", 7, &[1.0]),
        Exception {
            what: "silhouettes of the distances -0 (0-1) and -1 (0-2), labels 0, 0, 1",
            asked: Asked { leaf: 13, n: 3, items: [0, 0], a: patterns(&distances), b: vec![0, 0, 1] },
            here: patterns(&[f64::NEG_INFINITY, 1.0, 0.0]),
            there: patterns(&[f64::INFINITY, 1.0, 0.0]),
        },
    ]
}

/// The words of the text, one after the other.
struct Words(std::vec::IntoIter<u64>);

impl Words {
    fn list(&mut self, length: u64) -> Vec<u64> {
        let list: Vec<u64> = self.0.by_ref().take(length as usize).collect();
        assert_eq!(list.len() as u64, length, "the text ends within a case");
        list
    }
    fn case(&mut self) -> Option<Case> {
        if self.0.as_slice().is_empty() {
            return None;
        }
        let head = self.list(8);
        let (a, b) = (self.list(head[2]), self.list(head[3]));
        let answer = self.list(3);
        let values = self.list(answer[2]);
        let asked = Asked { leaf: head[0] as usize, n: head[1] as usize, items: [head[6] as usize, head[7] as usize], a, b };
        Some(Case { asked, refused: answer[0] != 0, values })
    }
}

/// Row by row.
fn cells(m: &DMatrix<f64>) -> Vec<f64> {
    m.transpose().as_slice().to_vec()
}

/// Leaves 2 to 6.
fn average(leaf: usize, values: &[f64], ddof: usize) -> Vec<f64> {
    let found = match leaf {
        2 => stats::mean(values),
        3 => stats::variance(values, ddof),
        4 => stats::std_dev(values, ddof),
        5 => Some(open::tstat(values)),
        6 => Some(open::mean_of(values)),
        _ => panic!("average {leaf} is unknown"),
    };
    found.into_iter().collect()
}

/// The values that the unchanged Rust gives.
fn by_rust(asked: &Asked) -> Vec<f64> {
    let Asked { leaf, n, items: [i, j], .. } = *asked;
    let a = doubles(&asked.a);
    let rows: Vec<usize> = asked.b.iter().map(|&x| x as usize).collect();
    let through = || open::submatrix(&matrix(&a, n), &rows);
    let row = |i: usize| open::corr_to_distance(&through()).row(i).iter().copied().collect::<Vec<f64>>();
    match leaf {
        1 => vec![a[0].sqrt()],
        2..=6 => average(leaf, &a, n),
        7 => vec![open::squared_distance(&a, &doubles(&asked.b))],
        8 => cells(&open::corr_to_distance(&matrix(&a, n))),
        9 => cells(&open::corr_to_distance(&through())),
        10 => cells(&through()),
        11 => cells(&open::pairwise_distances(&matrix(&a, n))),
        12 => cells(&open::pairwise_distances(&open::corr_to_distance(&through()))),
        13 => open::silhouette_from_pairwise(&matrix(&a, n), &rows),
        14 => vec![open::squared_distance(&row(i), &row(j))],
        15 => average(i + 2, &vec![0.5; n], 0),
        _ => panic!("leaf {leaf} is unknown"),
    }
}

fn main() {
    let mut text = String::new();
    std::io::stdin().read_to_string(&mut text).unwrap();
    let words: Vec<u64> = text.split_whitespace().map(|w| u64::from_str_radix(w, 16).unwrap()).collect();
    let mut words = Words(words.into_iter());
    let exceptions = exceptions();
    let mut met = [false; 4];
    // of each leaf: compared, as an exception says, otherwise
    let mut counts = [[0; 3]; LEAVES.len()];
    let mut cases = 0;
    while let Some(case) = words.case() {
        cases += 1;
        if case.refused {
            continue;
        }
        let found = patterns(&by_rust(&case.asked));
        let named = exceptions.iter().position(|e| e.asked == case.asked);
        let right = match named {
            Some(e) => case.values == exceptions[e].here && found == exceptions[e].there,
            None => case.values == found,
        };
        let name = LEAVES[case.asked.leaf - 1];
        if !right {
            let what = named.map_or("", |e| exceptions[e].what);
            println!("differs: case {cases}, {name} {what}: {found:x?} there, {:x?} here", case.values);
        }
        if let Some(e) = named {
            met[e] = true;
        }
        let count = &mut counts[case.asked.leaf - 1];
        count[0] += 1;
        count[1] += usize::from(right && named.is_some());
        count[2] += usize::from(!right);
    }
    for (name, [compared, named, differ]) in LEAVES.iter().zip(counts) {
        println!("{name:26} {compared:3} compared, {named} differ as named, {differ} otherwise");
    }
    for (e, met) in exceptions.iter().zip(met) {
        let also = if met { "" } else { ", but NOT AMONG THE CASES" };
        println!("named: {}, {:?} there, {:?} here{also}", e.what, doubles(&e.there), doubles(&e.here));
    }
    let [compared, named, differ] = [0, 1, 2].map(|i| counts.iter().map(|count| count[i]).sum::<usize>());
    println!("{cases} cases, {compared} compared with the Rust, {named} differ as docs/DIFFERENCES.md says, {differ} differ otherwise");
    std::process::exit(i32::from(differ > 0 || met.contains(&false)));
}
