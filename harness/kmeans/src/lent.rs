//! Lists as they are lent to the library, with cells around them that no call may write.
use crate::random::Random;

/// Cells in front of each list and behind it that no call may write.
const GUARD: usize = 24;

/// A list as it is lent, with guard cells around it, and a copy of all its cells. Doubles are kept as their bits.
pub struct Lent {
    cells: Vec<u64>,
    before: Vec<u64>,
}

impl Lent {
    pub fn new(r: &mut Random, list: impl Iterator<Item = u64>) -> Lent {
        let mut cells: Vec<u64> = (0..GUARD).map(|_| r.bits()).collect();
        cells.extend(list);
        cells.extend((0..GUARD).map(|_| r.bits()));
        let before = cells.clone();
        Lent { cells, before }
    }
    pub fn any(r: &mut Random, n: usize) -> Lent {
        let seed = r.bits();
        let mut own = Random::new(seed);
        Lent::new(r, (0..n).map(move |_| own.bits()))
    }
    pub fn len(&self) -> usize {
        self.cells.len() - 2 * GUARD
    }
    pub fn list(&self) -> &[u64] {
        &self.cells[GUARD..GUARD + self.len()]
    }
    pub fn at<T>(&mut self) -> *mut T {
        assert!(std::mem::size_of::<T>() == 8);
        self.cells[GUARD..].as_mut_ptr().cast()
    }
    pub fn kept(&self) -> bool {
        self.cells == self.before
    }
    /// Whether the first n cells are zero and all else, guards too, is as it was.
    pub fn zero_in_front(&self, n: usize) -> bool {
        let front = GUARD..GUARD + n;
        self.cells.len() == self.before.len()
            && self.cells.iter().zip(&self.before).enumerate().all(|(i, (now, old))| {
                if front.contains(&i) {
                    *now == 0
                } else {
                    now == old
                }
            })
    }
    /// Whether the guards are as they were.
    pub fn guarded(&self) -> bool {
        let end = GUARD + self.len();
        self.cells[..GUARD] == self.before[..GUARD] && self.cells[end..] == self.before[end..]
    }
    /// Whether the list is this one and the guards are as they were.
    pub fn is(&self, list: &[usize]) -> bool {
        self.list().iter().map(|&x| x as usize).eq(list.iter().copied())
            && self.cells[..GUARD] == self.before[..GUARD]
            && self.cells[GUARD + list.len()..] == self.before[GUARD + list.len()..]
    }
}
