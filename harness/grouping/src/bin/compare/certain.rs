//! What is certain of every book, looked at in what the library left: crates/onc/specs/Certain.antt in plain words.
use grouping_harness::call::{bits, Call};

/// How many groupings there were, of which books and with how many scores; how many were against the claim, and how often 3 was answered.
#[derive(Default)]
pub struct Certain {
    groupings: usize,
    holes: usize,
    infinite: usize,
    asymmetric: usize,
    scores: usize,
    wrong: usize,
    failed: usize,
}

impl Certain {
    /// A call, the number that it returned, the groups that it told, and what it left: order, sizes, scores, ordered.
    pub fn look(&mut self, call: &Call, number: usize, groups: usize, outputs: [&[u64]; 4]) {
        self.failed += usize::from(number == 3);
        if number != 0 {
            return;
        }
        let (n, book) = (call.rows, &call.book);
        self.groupings += 1;
        self.holes += usize::from(book.iter().any(|c| c.is_nan()));
        self.infinite += usize::from(book.iter().any(|c| c.is_infinite()));
        self.asymmetric += usize::from((0..n * n).any(|c| bits(book[c]) != bits(book[c % n * n + c / n])));
        self.scores += outputs[2].len();
        let wrong = faults(n, book, groups, outputs);
        if !wrong.is_empty() && self.wrong < 5 {
            println!("against the claim: {n} names: {}", wrong.join("; "));
        }
        self.wrong += usize::from(!wrong.is_empty());
    }
    pub fn holds(&self) -> bool {
        self.wrong == 0 && self.failed == 0
    }
    pub fn print(&self) {
        for (count, kind) in [(self.holes, "NaN"), (self.infinite, "infinite")] {
            println!("certain {:28} {count:9} groupings", format!("a cell {kind}"));
        }
        println!("certain {:28} {:9} groupings", "a cell unlike its mirror", self.asymmetric);
        println!("certain: {} groupings with {} scores, {} against the claim; 3 answered {} times", self.groupings, self.scores, self.wrong, self.failed);
    }
}

/// What of a grouping of n names is against the claim, in words.
fn faults(n: usize, book: &[f64], groups: usize, [order, sizes, scores, ordered]: [&[u64]; 4]) -> Vec<&'static str> {
    let mut names: Vec<u64> = order.to_vec();
    names.sort_unstable();
    let each_once = names.into_iter().eq(0..n as u64);
    let place = |i: usize| order[i] as usize;
    let rows = [
        (sizes.iter().enumerate().all(|(g, &size)| (size > 0) == (g < groups)), "an empty group, or one behind the last"),
        (sizes.iter().sum::<u64>() == n as u64, "sizes that do not add up to the names"),
        (each_once, "a name not exactly once in the order"),
        (scores.len() == n && scores.iter().all(|&s| (-1.0..=1.0).contains(&f64::from_bits(s))), "a score that is a NaN or outside -1..1"),
        (each_once && (0..n * n).all(|c| bits(f64::from_bits(ordered[c])) == bits(book[place(c / n) * n + place(c % n)])), "a matrix that is not the book in that order"),
    ];
    rows.into_iter().filter(|(right, _)| !right).map(|(_, what)| what).collect()
}
