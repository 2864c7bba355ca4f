//! Memory to lend: garbage before a call, with a guard on either side that must stand after it.

/// Numbers on either side of what is lent.
const GUARD: usize = 64;

pub trait Number: Copy + PartialEq + Into<u64> {
    /// The number in the word's low bits, never 0.
    fn of(word: u64) -> Self;
}

impl Number for u8 {
    fn of(word: u64) -> u8 {
        (word as u8).max(1)
    }
}

impl Number for u32 {
    fn of(word: u64) -> u32 {
        (word as u32).max(1)
    }
}

impl Number for u64 {
    fn of(word: u64) -> u64 {
        word.max(1)
    }
}

pub struct Lending<T> {
    all: Vec<T>,
    seed: u64,
}

impl<T: Number> Lending<T> {
    pub fn new(length: usize, seed: u64) -> Lending<T> {
        let all = (0..length + 2 * GUARD).map(|at| garbage(seed, at));
        Lending {
            all: all.collect(),
            seed,
        }
    }

    pub fn length(&self) -> usize {
        self.all.len() - 2 * GUARD
    }

    pub fn lent(&self) -> &[T] {
        &self.all[GUARD..GUARD + self.length()]
    }

    pub fn lent_mut(&mut self) -> &mut [T] {
        let length = self.length();
        &mut self.all[GUARD..GUARD + length]
    }

    pub fn guards_stand(&self) -> bool {
        let after = GUARD + self.length();
        let mut guards = (0..GUARD).chain(after..self.all.len());
        guards.all(|at| self.all[at] == garbage(self.seed, at))
    }

    /// The first number of the lent part from a place on that isn't 0, and where it is.
    pub fn not_zero(&self, from: usize) -> Option<(usize, u64)> {
        let rest = self.lent().get(from..)?;
        let at = rest.iter().position(|&number| number.into() != 0)?;
        Some((from + at, rest[at].into()))
    }
}

/// Never 0; by the seed all bits, ones, small numbers or anything.
fn garbage<T: Number>(seed: u64, at: usize) -> T {
    T::of(match seed % 4 {
        0 => u64::MAX,
        1 => 1,
        2 => at as u64 & 7,
        _ => (seed.wrapping_add(at as u64)).wrapping_mul(0x9e37_79b9_7f4a_7c15) >> 17,
    })
}

#[cfg(test)]
mod tests {
    use super::*;

    #[test]
    fn garbage_is_never_zero_and_guards_are_seen() {
        for seed in 0..8 {
            let mut lending = Lending::<u8>::new(5, seed);
            assert_eq!((lending.length(), lending.lent().len()), (5, 5));
            assert!(lending.lent().iter().all(|&byte| byte != 0) && lending.guards_stand());
            lending.all[GUARD..GUARD + 5].fill(0);
            assert!(lending.guards_stand() && lending.not_zero(0).is_none());
            lending.all[GUARD + 3] = 9;
            assert_eq!(
                (lending.not_zero(2), lending.not_zero(4)),
                (Some((3, 9)), None)
            );
            for at in [0, GUARD - 1, GUARD + 5, 2 * GUARD + 4] {
                let before = std::mem::replace(&mut lending.all[at], 0);
                assert!(!lending.guards_stand());
                lending.all[at] = before;
            }
        }
    }

    #[test]
    fn nothing_can_be_lent() {
        let lending = Lending::<u32>::new(0, 7);
        assert!(
            lending.lent().is_empty() && lending.not_zero(0).is_none() && lending.guards_stand()
        );
    }
}
