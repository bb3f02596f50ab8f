//! Writes the cases that the program `test_kmeans` runs: run.sh record > crates/test_kmeans/stdin
//! Centres, labels and 8 are the unchanged Rust's with these draws; 2, 4, 5, 6, 7, 10 and 29 are the table's.
//! The layout stands in crates/test_kmeans/src/main.rt.
use kmeans_harness::books::{distances, Book, BOOKS};
use kmeans_harness::draws::{in_range, limit, Draws};
use kmeans_harness::leaf::{expected, need, silence, Call, Leaf, LEAVES};
use kmeans_harness::random::Random;

/// What an output list holds before a call.
const MARK: u64 = 999;

fn bits(x: f64) -> u64 {
    if x.is_nan() {
        0x7ff8_0000_0000_0000
    } else {
        x.to_bits()
    }
}

fn write(call: &Call) {
    let want = expected(call);
    let leaf = 1 + LEAVES.iter().position(|&l| l == call.leaf).unwrap();
    let lengths = [call.points.len(), call.list.len(), call.out, call.floats, call.numbers];
    let mut words: Vec<u64> = vec![leaf as u64, call.n as u64, call.k as u64];
    words.extend(lengths.map(|x| x as u64));
    words.extend(call.points.iter().map(|&x| bits(x)));
    words.extend(&call.list);
    words.extend([want.number, want.place, want.read].map(|x| x as u64));
    match &want.out {
        Some(out) => words.extend(out.iter().map(|&x| x as u64)),
        None => words.extend(vec![MARK; call.out]),
    }
    for w in words {
        println!("{w:016x}");
    }
}

/// A call with lists of the right lengths; a lent list of Lloyd is its centres.
fn leaf(leaf: Leaf, points: &[f64], n: usize, list: &[u64], k: usize) {
    let k = if leaf == Leaf::Lloyd { list.len() } else { k };
    write(&Call::proper(leaf, points.to_vec(), n, k, list.to_vec()));
}

/// Every kind of book, with each leaf in turn and draws of several kinds.
fn every_book(r: &mut Random) {
    let kinds = [
        Draws::InRange,
        Draws::ZeroOrLast,
        Draws::AllZero,
        Draws::Longer,
        Draws::AllLast,
    ];
    for round in 0..3 {
        for (at, book) in BOOKS.into_iter().enumerate() {
            let n = 2 + (at + 3 * round) % 8;
            let points = book.points(r, n);
            let k = if round == 0 { n } else { r.from(2, n) };
            let draws = kinds[(at + round) % 5].list(r, &points, n, k);
            leaf(
                if (at + round) % 2 == 0 {
                    Leaf::Seeding
                } else {
                    Leaf::Labels
                },
                &points,
                n,
                &draws,
                k,
            );
            if round < 2 {
                let centres: Vec<u64> = (0..k).map(|_| r.below(n) as u64).collect();
                leaf(Leaf::Lloyd, &points, n, &centres, k);
            }
        }
    }
    for (n, k, book) in [
        (12, 8, Book::Block),
        (13, 3, Book::ExactBlock),
        (16, 9, Book::NanCells),
        (16, 16, Book::Distances),
    ] {
        let points = book.points(r, n);
        let draws = in_range(r, &points, n, k).0;
        leaf(Leaf::Labels, &points, n, &draws, k);
    }
}

/// Items at these places of the first column.
fn in_a_line(places: &[f64]) -> Vec<f64> {
    let n = places.len();
    (0..n * n)
        .map(|c| if c % n == 0 { places[c / n] } else { 0.0 })
        .collect()
}

/// Books on which a rule of the definitions decides.
fn edges(r: &mut Random) {
    // labels that change in each of the 300 passes, since three times x times (1/3) is not x
    for (n, cell) in [(3, 0.1), (3, 0.7), (6, 0.1), (2, 0.1)] {
        let points = distances(&vec![cell; n * n], n);
        leaf(Leaf::Labels, &points, n, &[0, 0, 0], 2);
        leaf(Leaf::Lloyd, &points, n, &[0, 0], 2);
        leaf(Leaf::Seeding, &points, n, &[1, 0, 1], 2);
    }
    // a share of 0 does not pick an item of weight 0; the first of equal potentials stays
    let line = [0.0, 0.0, 0.0, 0.0, 0.0, 0.0, 3.0, 0.0, 0.0];
    leaf(Leaf::Seeding, &line, 3, &[0, 0, 0], 2);
    leaf(Leaf::Seeding, &line, 3, &[2, 0, (1 << 53) - 1], 2);
    leaf(Leaf::Seeding, &line, 3, &[2, (1 << 53) - 1, 0], 2);
    leaf(Leaf::Seeding, &line, 3, &[2, 1 << 52, 0], 2);
    // groups that stay empty, and that take the farthest item, lowest row on ties
    let far = [
        0.0, 0.0, 0.0, 0.0, 1.0, 0.0, 0.0, 0.0, 9.0, 0.0, 0.0, 0.0, 9.0, 0.0, 0.0, 0.0,
    ];
    for centres in [[0, 0, 0], [1, 1, 1], [2, 3, 2], [0, 2, 3], [3, 2, 3]] {
        leaf(Leaf::Lloyd, &far, 4, &centres, 3);
    }
    leaf(Leaf::Lloyd, &[0.0; 16], 4, &[0, 1, 2, 3], 4);
    leaf(Leaf::Lloyd, &[f64::NAN; 9], 3, &[0, 1, 2], 3);
    leaf(Leaf::Lloyd, &[f64::INFINITY; 9], 3, &[2, 1], 2);
    // a row of NaN keeps label 0, and its group's centroid is lost
    let mut holes = Book::Random.points(r, 5);
    holes[5..10].fill(f64::NAN);
    for centres in [[1, 0], [0, 1], [3, 4], [1, 1]] {
        leaf(Leaf::Lloyd, &holes, 5, &centres, 2);
    }
    let (draws, _) = in_range(r, &holes, 5, 4);
    leaf(Leaf::Labels, &holes, 5, &draws, 4);
    // in one pass only the last item changes its label, and others follow
    leaf(Leaf::Lloyd, &in_a_line(&[8.0, 12.0, 5.0, 7.0]), 4, &[2, 3], 2);
    leaf(Leaf::Lloyd, &in_a_line(&[6.0, 3.0, 0.0, 15.0, 5.0]), 5, &[2, 4], 2);
    // a weight that is NaN gives way to one that is infinite: the total is then infinite, and shares are drawn
    let infinite = [f64::INFINITY, 0.0, 0.0, 0.0, 0.0, 0.0, 0.0, 1.0, 0.0];
    leaf(Leaf::Seeding, &infinite, 3, &[0, 1, 1, 1, 1 << 52, 5, 7], 3);
    leaf(Leaf::Labels, &infinite, 3, &[0, 1, 2, 1, 0, 5, 7], 3);
    // squared distances that are infinite, or too small to be above 0
    leaf(
        Leaf::Labels,
        &[1e200, 0.0, 0.0, -1e200, 0.0, 0.0, 0.0, 0.0, 1.0],
        3,
        &[2, 0, 1],
        2,
    );
    leaf(Leaf::Labels, &[1e-200, 0.0, 0.0, -1e-200], 2, &[1, 0, 1], 2);
}

/// A draw at the end of its range and past it at each place, lists that are too short, one longer.
fn draws(r: &mut Random) {
    for (book, n, k) in [(Book::Random, 3, 3), (Book::Zero, 3, 2), (Book::RepeatedRows, 4, 3)] {
        let points = book.points(r, n);
        let (good, kinds) = in_range(r, &points, n, k);
        for place in 0..need(k) {
            let at = |value: u64| [&good[..place], &[value], &good[place + 1..]].concat();
            let end = limit(kinds[place]);
            leaf(Leaf::Labels, &points, n, &at(end - 1), k);
            leaf(Leaf::Labels, &points, n, &at(end), k);
            leaf(Leaf::Seeding, &points, n, &at(u64::MAX), k);
        }
        leaf(Leaf::Labels, &points, n, &good[1..], k);
        leaf(Leaf::Seeding, &points, n, &good[1..], k);
        leaf(Leaf::Labels, &points, n, &[], k);
        leaf(Leaf::Seeding, &points, n, &[&good[..], &[u64::MAX]].concat(), k);
    }
}

/// Each refusal that keeps every list, alone and before the next.
fn refusals(r: &mut Random) {
    for kind in LEAVES {
        let (n, k) = (3, 2);
        let points = Book::Distances.points(r, n);
        let list = if kind == Leaf::Lloyd {
            vec![0, 2]
        } else {
            in_range(r, &points, n, k).0
        };
        let good = Call::proper(kind, points, n, k, list);
        let change = |f: &dyn Fn(&mut Call)| {
            let mut call = good.clone();
            f(&mut call);
            if kind == Leaf::Lloyd {
                call.k = call.list.len();
            }
            write(&call);
        };
        for names in [0, 1, 257, 1 << 32, 1 << 62] {
            change(&|c| {
                c.n = names;
                c.points.clear();
            });
        }
        change(&|c| c.points.truncate(8));
        change(&|c| {
            c.points.push(0.5);
            c.out += 1;
        });
        for by in [1, 3] {
            change(&|c| c.out += by);
            change(&|c| c.out = c.out.saturating_sub(by));
        }
        change(&|c| c.floats -= 1);
        change(&|c| c.floats = 0);
        change(&|c| c.numbers -= 1);
        change(&|c| {
            c.floats += 2;
            c.numbers += 1;
        });
        for k in [0, 1, 4, 5] {
            change(&|c| {
                c.k = k;
                if kind == Leaf::Lloyd {
                    c.list = vec![7; k];
                }
                if kind == Leaf::Seeding {
                    c.out = k;
                }
            });
        }
        if kind == Leaf::Lloyd {
            for centres in [[3, 0], [0, 3], [3, 4], [1 << 63, 0], [1, u64::MAX]] {
                change(&|c| c.list = centres.to_vec());
            }
        }
    }
}

fn main() {
    silence();
    let mut r = Random::new(20261115);
    every_book(&mut r);
    edges(&mut r);
    draws(&mut r);
    refusals(&mut r);
}
