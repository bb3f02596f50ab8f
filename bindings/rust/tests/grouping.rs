//! The grouping: worked examples, refusals, and working lists used again.
use onc::{draws_enough, draws_for, get_onc_clusters, get_onc_clusters_with_draws, get_onc_clusters_with_seed, Grouper, Grouping, Refusal, DEFAULT_SEED};

/// Four names in two pairs, 0.875 within a pair and 0.125 across.
const PAIRS: [f64; 16] = [
    1.0, 0.875, 0.125, 0.125, 0.875, 1.0, 0.125, 0.125, 0.125, 0.125, 1.0, 0.875, 0.125, 0.125, 0.875, 1.0,
];

/// Names in blocks of eight, 0.75 within a block and 0.125 across.
fn blocks(n: usize) -> Vec<f64> {
    (0..n * n)
        .map(|c| match (c / n, c % n) {
            (i, j) if i == j => 1.0,
            (i, j) if i / 8 == j / 8 => 0.75,
            _ => 0.125,
        })
        .collect()
}

/// Six names in three pairs, by which the rounds do not end.
fn endless() -> Vec<f64> {
    (0..36)
        .map(|c| match (c / 6, c % 6) {
            (i, j) if i == j => 1.0,
            (i, j) if i / 2 == j / 2 => 0.875,
            (i, j) if i % 2 == 1 && j % 2 == 1 => 0.21875,
            _ => 0.0546875,
        })
        .collect()
}

/// Twelve names in six pairs, unevenly alike.
fn twelve() -> Vec<f64> {
    (0..144)
        .map(|c| match (c / 12, c % 12) {
            (i, j) if i == j => 1.0,
            (i, j) => ((if i / 2 == j / 2 { 32 } else { 0 }) + (3 * i * j + 9 * (i + j)) % 16) as f64 / 64.0,
        })
        .collect()
}

fn bits(values: &[f64]) -> Vec<u64> {
    values.iter().map(|x| x.to_bits()).collect()
}

/// What holds of every grouping of this book.
fn assert_whole(found: &Grouping, book: &[f64], n: usize) {
    let mut names = found.order().to_vec();
    names.sort_unstable();
    assert!(names.into_iter().eq(0..n), "a name is missing or twice");
    assert_eq!((found.names(), found.scores().len(), found.groups().len()), (n, n, found.len()));
    assert!(found.groups().all(|group| !group.is_empty()));
    assert!(
        found.scores().iter().all(|score| (-1.0..=1.0).contains(score)),
        "a score is a NaN or outside -1..1"
    );
    assert!(found.groups().map(<[usize]>::len).eq(found.sizes().iter().copied()));
    assert!(found.groups().flatten().eq(found.order()));
    let labels = found.labels();
    for (label, group) in found.groups().enumerate() {
        assert!(group.iter().all(|&name| labels[name] == label));
    }
    let order = found.order();
    let expected: Vec<f64> = (0..n * n).map(|c| book[order[c / n] * n + order[c % n]]).collect();
    assert_eq!(bits(found.ordered()), bits(&expected));
}

/// What the unchanged Rust answers by a seed, as harness/oracle/openquant/examples/seeded.rs prints it: the draws of 42 on the two pairs, and on the
/// twelve names the scores of the six pairs and of the five groups, and repeat, seed, order, sizes, scores and draws of each run.
const DRAWS_OF_42: [u64; 10] = [
    0,
    2240436130339214,
    7822091515682305,
    2,
    3656038014234310,
    309332604289587,
    3737598995710448,
    6642128755826959,
    7649378418684374,
    1182455112672144,
];
const SIX_PAIRS: [u64; 12] = [
    0x3fd7c6aa1fb3aa44,
    0x3fd8cda7090eef9f,
    0x3fdcf2c767dd6eb6,
    0x3fdc9c63982df4ca,
    0x3fdc87190a0e9c93,
    0x3fdc1601fb02dc5e,
    0x3fd126aad5ce6260,
    0x3fd02367d55cbe56,
    0x3fcc9fa0254c1c37,
    0x3fcfb03c608650d2,
    0x3fd62cf7f30d5d0d,
    0x3fd4c3ced6b52a5a,
];
const FIVE_GROUPS: [u64; 12] = [
    0x3fd8c06ade0e84c5,
    0x3fd8ec56ad15bfcd,
    0x3fdd0da72b4e73cf,
    0x3fdd3a7ea809fee0,
    0x3fdc87190a0e9c93,
    0x3fdc295b2dedd8b7,
    0x3fbf226d9a2652da,
    0x3fbb3ad52fd86f00,
    0x3fbef9e9aee405da,
    0x3fb9efe078a14f25,
    0x3fd62cf7f30d5d0d,
    0x3fd584222fa3738d,
];
type Known = (usize, u64, [usize; 12], &'static [usize], [u64; 12], usize);
const KNOWN: [Known; 5] = [
    (1, 0, [4, 5, 2, 3, 10, 11, 0, 1, 8, 9, 6, 7], &[2; 6], SIX_PAIRS, 276),
    (1, 7, [2, 3, 4, 5, 6, 7, 8, 9, 10, 11, 0, 1], &[2, 2, 4, 2, 2], FIVE_GROUPS, 276),
    (1, 42, [0, 1, 6, 7, 8, 9, 2, 3, 10, 11, 4, 5], &[2, 4, 2, 2, 2], FIVE_GROUPS, 309),
    (1, u64::MAX, [4, 5, 2, 3, 0, 1, 6, 7, 8, 9, 10, 11], &[2; 6], SIX_PAIRS, 276),
    (2, 42, [4, 5, 2, 3, 6, 7, 0, 1, 10, 11, 8, 9], &[2; 6], SIX_PAIRS, 552),
];

#[test]
fn by_a_seed_bit_for_bit() {
    let found = get_onc_clusters_with_seed(&PAIRS, 4, 4, 1, 42).unwrap();
    assert_eq!((found.len(), found.names(), found.draws_read()), (2, 4, 10));
    assert!(found.groups().eq([[0, 1], [2, 3]]));
    assert_eq!(bits(found.scores()), [0x3fe5badbd0cf64da; 4]);
    assert_whole(&found, &PAIRS, 4);
    assert!(get_onc_clusters_with_seed(&PAIRS, 4, 4, 1, 0).unwrap().groups().eq([[2, 3], [0, 1]]));
    let book = twelve();
    let mut grouper = Grouper::new();
    for (repeat, seed, order, sizes, scores, draws) in KNOWN {
        let found = get_onc_clusters_with_seed(&book, 12, 12, repeat, seed).unwrap();
        assert_eq!((found.order(), found.sizes(), found.draws_read()), (&order[..], sizes, draws), "seed {seed}");
        assert_eq!(bits(found.scores()), scores, "seed {seed}");
        assert_whole(&found, &book, 12);
        assert_eq!(grouper.get_onc_clusters_with_seed(&book, 12, 12, repeat, seed), Ok(found));
    }
}

#[test]
fn a_seed_and_the_list_of_its_draws() {
    let found = get_onc_clusters_with_draws(&PAIRS, 4, 4, 1, &DRAWS_OF_42);
    assert_eq!(get_onc_clusters_with_seed(&PAIRS, 4, 4, 1, 42), found);
    assert_eq!(Grouper::new().get_onc_clusters(&PAIRS, 4, 4, 1), found);
}

#[test]
fn the_default_seed() {
    assert_eq!(DEFAULT_SEED, 42);
    let mut grouper = Grouper::new();
    for (book, n, repeat) in [
        (PAIRS.to_vec(), 4, 1),
        (twelve(), 12, 1),
        (twelve(), 12, 2),
        (endless(), 6, 1),
        (blocks(24), 24, 1),
        (vec![], 0, 1),
    ] {
        let found = get_onc_clusters_with_seed(&book, n, n, repeat, DEFAULT_SEED);
        assert_eq!(get_onc_clusters(&book, n, n, repeat), found);
        assert_eq!(grouper.get_onc_clusters(&book, n, n, repeat), found);
    }
}

#[test]
fn the_first_grouping_bit_for_bit() {
    let found = get_onc_clusters_with_draws(&PAIRS, 4, 4, 1, &[0; 10]).unwrap();
    assert_eq!((found.len(), found.names(), found.draws_read()), (2, 4, 10));
    assert_eq!(found.labels(), [1, 1, 0, 0]);
    assert_eq!(found.order(), [2, 3, 0, 1]);
    assert_eq!(found.sizes(), [2, 2]);
    assert!(found.groups().eq([[2, 3], [0, 1]]));
    assert_eq!(bits(found.scores()), [0x3fe5badbd0cf64da; 4]);
    assert_whole(&found, &PAIRS, 4);
}

#[test]
fn two_names_apart() {
    let book = [1.0, 0.0, 0.0, 1.0];
    let found = get_onc_clusters_with_draws(&book, 2, 2, 1, &[0, 0, 1 << 52]).unwrap();
    assert_eq!((found.len(), found.labels(), found.draws_read()), (2, vec![0, 1], 3));
    assert_eq!(bits(found.scores()), [0, 0]);
    assert_whole(&found, &book, 2);
}

#[test]
fn alike_and_nan_books_are_one_group() {
    for cell in [1.0, f64::NAN] {
        let book = [cell; 4];
        let found = get_onc_clusters_with_draws(&book, 2, 2, 1, &[0, 0, 0]).unwrap();
        assert_eq!((found.len(), found.labels()), (1, vec![0, 0]));
        assert_eq!(bits(found.scores()), [0, 0]);
        assert!(found.ordered().iter().all(|x| x.is_nan() == cell.is_nan()));
    }
    let book = [f64::NAN; 36];
    let found = get_onc_clusters_with_draws(&book, 6, 6, 2, &[0; 66 * 32]).unwrap();
    assert_eq!(found.groups().flatten().count(), 6);
}

#[test]
fn draws_behind_those_read_change_nothing() {
    let mut draws = vec![0; 10];
    let found = get_onc_clusters_with_draws(&PAIRS, 4, 4, 1, &draws).unwrap();
    draws.extend([u64::MAX, 7, 1 << 60]);
    assert_eq!(get_onc_clusters_with_draws(&PAIRS, 4, 4, 1, &draws), Ok(found));
}

#[test]
fn refusals_before_the_run() {
    // in every way the same
    let refused = |book: &[f64], rows, cols, repeat| {
        let refusal = get_onc_clusters_with_draws(book, rows, cols, repeat, &[0; 10]).unwrap_err();
        assert_eq!(get_onc_clusters(book, rows, cols, repeat), Err(refusal));
        for seed in [0, 42, u64::MAX] {
            assert_eq!(get_onc_clusters_with_seed(book, rows, cols, repeat, seed), Err(refusal));
        }
        refusal
    };
    assert_eq!(refused(&[1.0], 1, 1, 0), Refusal::InvalidRepeat);
    assert_eq!(refused(&PAIRS, 4, 4, 0), Refusal::InvalidRepeat);
    assert_eq!(refused(&[1.0], 1, 1, 1), Refusal::InvalidCorrelationMatrix);
    assert_eq!(refused(&[], 0, 0, 1), Refusal::InvalidCorrelationMatrix);
    assert_eq!(refused(&PAIRS, 2, 8, 1), Refusal::InvalidCorrelationMatrix);
    assert_eq!(refused(&PAIRS, 4, 3, 1), Refusal::InvalidCorrelationMatrix);
    assert_eq!(refused(&PAIRS, 4, 4, 65), Refusal::TooLarge);
    assert_eq!(refused(&PAIRS, 4, 4, usize::MAX), Refusal::TooLarge);
    assert_eq!(refused(&vec![0.5; 257 * 257], 257, 257, 1), Refusal::TooLarge);
    for rows in [257, 1 << 32, usize::MAX] {
        assert_eq!(refused(&PAIRS, rows, rows, 1), Refusal::TooLarge, "{rows} rows");
        assert_eq!(refused(&[], rows, rows, 1), Refusal::TooLarge, "{rows} rows");
        assert_eq!(refused(&[], rows, 0, 1), Refusal::InvalidCorrelationMatrix, "{rows} rows");
    }
    assert_eq!(refused(&PAIRS[..15], 4, 4, 1), Refusal::CellCount);
    assert_eq!(refused(&PAIRS, 3, 3, 1), Refusal::CellCount);
    assert_eq!(refused(&[], 256, 256, 1), Refusal::CellCount);
}

#[test]
fn refusals_of_the_run() {
    let ones = [1.0; 4];
    let refused = |book: &[f64], n, draws: &[u64]| get_onc_clusters_with_draws(book, n, n, 1, draws).unwrap_err();
    assert_eq!(refused(&ones, 2, &[0, 0]), Refusal::TooFewDraws { read: 0 });
    assert_eq!(refused(&ones, 2, &[]), Refusal::TooFewDraws { read: 0 });
    assert_eq!(refused(&ones, 2, &[2, 0, 0]), Refusal::DrawOutOfRange { place: 0 });
    assert_eq!(refused(&ones, 2, &[0, 0, u64::MAX]), Refusal::DrawOutOfRange { place: 2 });
    assert_eq!(refused(&[1.0, 0.0, 0.0, 1.0], 2, &[0, 0, 1 << 53]), Refusal::DrawOutOfRange { place: 2 });
    let round = draws_for(6, 1).unwrap() as usize;
    assert_eq!(refused(&endless(), 6, &vec![0; 32 * round]), Refusal::TooManyRounds);
    assert_eq!(get_onc_clusters_with_seed(&endless(), 6, 6, 1, 42), Err(Refusal::TooManyRounds));
    assert_eq!(refused(&endless(), 6, &vec![0; 3 * round + 1]), Refusal::TooFewDraws { read: 3 * round });
}

#[test]
fn working_lists_are_used_again() {
    let calls: Vec<(Vec<f64>, usize, usize, Vec<u64>)> = vec![
        (PAIRS.to_vec(), 4, 1, vec![0; 10]),
        (blocks(40), 40, 1, vec![1; draws_enough(40, 1).unwrap() as usize]),
        (vec![1.0, 0.0, 0.0, 1.0], 2, 1, vec![0, 0, 1 << 52]),
        (endless(), 6, 1, vec![0; 33 * 32]),
        (blocks(24), 24, 2, vec![0; draws_enough(24, 2).unwrap() as usize]),
        (vec![1.0; 4], 2, 1, vec![0, 2, 0]),
        (vec![], 300, 1, vec![]),
        (PAIRS.to_vec(), 4, 1, vec![0; 9]),
        (PAIRS.to_vec(), 4, 0, vec![0; 10]),
        (PAIRS.to_vec(), 4, 1, vec![0; 10]),
    ];
    let mut grouper = Grouper::new();
    for turn in 0..2 {
        for (book, n, repeat, draws) in &calls {
            let by_seed = grouper.get_onc_clusters_with_seed(book, *n, *n, *repeat, turn);
            assert_eq!(by_seed, get_onc_clusters_with_seed(book, *n, *n, *repeat, turn));
            let again = grouper.get_onc_clusters_with_draws(book, *n, *n, *repeat, draws);
            assert_eq!(again, get_onc_clusters_with_draws(book, *n, *n, *repeat, draws));
            if let Ok(found) = again {
                assert_whole(&found, book, *n);
            }
        }
    }
}

#[test]
fn the_most_names() {
    let book = blocks(256);
    let draws = vec![0; draws_enough(256, 1).unwrap() as usize];
    let found = get_onc_clusters_with_draws(&book, 256, 256, 1, &draws).unwrap();
    assert_whole(&found, &book, 256);
    assert!(found.draws_read() as u64 >= draws_for(256, 1).unwrap());
    let found = get_onc_clusters_with_seed(&book, 256, 256, 1, 42).unwrap();
    assert_whole(&found, &book, 256);
    assert_eq!(found.len(), 32);
}

#[test]
fn groupers_in_several_threads() {
    let expected = get_onc_clusters_with_draws(&blocks(24), 24, 24, 1, &vec![0; draws_enough(24, 1).unwrap() as usize]);
    let threads: Vec<_> = (0..4)
        .map(|_| {
            std::thread::spawn(|| {
                let mut grouper = Grouper::new();
                let draws = vec![0; draws_enough(24, 1).unwrap() as usize];
                (0..20)
                    .map(|_| grouper.get_onc_clusters_with_draws(&blocks(24), 24, 24, 1, &draws))
                    .collect::<Vec<_>>()
            })
        })
        .collect();
    for thread in threads {
        assert!(thread.join().unwrap().iter().all(|found| *found == expected));
    }
}

#[test]
fn counts_of_draws() {
    let counts = [3, 3, 10, 20, 33, 49, 68, 97, 130, 167, 208];
    for (names, count) in (2..).zip(counts) {
        assert_eq!(draws_for(names, 1), Some(count));
        assert_eq!(draws_for(names, 64), Some(64 * count));
        assert_eq!(draws_enough(names, 3), Some(96 * count));
    }
    assert_eq!(draws_for(256, 64), Some(13_723_392));
    for (names, repeat) in [(0, 1), (1, 1), (257, 1), (usize::MAX, 1), (4, 0), (4, 65), (4, usize::MAX)] {
        assert_eq!(
            (draws_for(names, repeat), draws_enough(names, repeat)),
            (None, None),
            "{names} names, {repeat} repeats"
        );
    }
}
