//! Lists of draws that fit a book: which kind is taken at a place depends on the book, so the Rust is run on a rule.
use crate::leaf::{by_rust, need, Call, Leaf};
use crate::random::Random;
use rand::{Kind, Source, SHARE_END};

#[derive(Clone, Copy, Debug, PartialEq, Eq, PartialOrd, Ord)]
pub enum Draws {
    InRange,
    AllZero,
    AllLast,
    ZeroOrLast,
    AllBelowNames,
    AnyShare,
    AnyBits,
    Longer,
    OutOfRange,
    Short,
}

pub const DRAWS: [Draws; 10] = [
    Draws::InRange,
    Draws::AllZero,
    Draws::AllLast,
    Draws::ZeroOrLast,
    Draws::AllBelowNames,
    Draws::AnyShare,
    Draws::AnyBits,
    Draws::Longer,
    Draws::OutOfRange,
    Draws::Short,
];

/// The least value that is out of range.
pub fn limit(kind: Kind) -> u64 {
    match kind {
        Kind::Index(n) => n,
        Kind::Share => SHARE_END,
    }
}

/// The draws that the Rust takes by a rule, with the kind of each.
pub fn taken(points: &[f64], n: usize, k: usize, rule: rand::Policy) -> (Vec<u64>, Vec<Kind>) {
    let call = Call::proper(Leaf::Seeding, points.to_vec(), n, k, Vec::new());
    let (_, control) = by_rust(&call, Source::Policy(rule));
    (control.draws, control.kinds)
}

/// Draws in range, of the count that k takes.
pub fn in_range(r: &mut Random, points: &[f64], n: usize, k: usize) -> (Vec<u64>, Vec<Kind>) {
    let mut own = Random::new(r.bits());
    taken(points, n, k, Box::new(move |_, kind| own.bits() % limit(kind)))
}

impl Draws {
    pub fn list(self, r: &mut Random, points: &[f64], n: usize, k: usize) -> Vec<u64> {
        let mut own = Random::new(r.bits());
        match self {
            Draws::InRange => in_range(r, points, n, k).0,
            Draws::AllZero => vec![0; need(k)],
            Draws::AllLast => taken(points, n, k, Box::new(|_, kind| limit(kind) - 1)).0,
            Draws::ZeroOrLast => {
                taken(
                    points,
                    n,
                    k,
                    Box::new(move |_, kind| if own.once_in(2) { 0 } else { limit(kind) - 1 }),
                )
                .0
            }
            Draws::AllBelowNames => (0..need(k)).map(|_| own.bits() % n as u64).collect(),
            Draws::AnyShare => (0..need(k)).map(|_| own.bits() >> 11).collect(),
            Draws::AnyBits => (0..need(k)).map(|_| own.bits()).collect(),
            Draws::Longer => {
                let mut list = in_range(r, points, n, k).0;
                for _ in 0..own.from(1, 9) {
                    list.push(own.one_of(&[0, 1, n as u64, SHARE_END, u64::MAX]));
                }
                list
            }
            Draws::OutOfRange => {
                let (mut list, kinds) = in_range(r, points, n, k);
                let place = own.below(list.len());
                list[place] = bad(&mut own, kinds[place]);
                list
            }
            Draws::Short => {
                let mut list = in_range(r, points, n, k).0;
                let left = if own.once_in(2) {
                    list.len() - 1
                } else {
                    own.below(list.len())
                };
                list.truncate(left);
                list
            }
        }
    }
}

/// A value out of range for the kind.
pub fn bad(r: &mut Random, kind: Kind) -> u64 {
    let end = limit(kind);
    r.one_of(&[end, end, end + 1, 1 << 63, u64::MAX])
}
