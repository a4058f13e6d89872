//! A buffer that a call is lent, with guards before and after it: every element is looked at after the call.

use super::random::Random;

/// Elements that stand on both sides of what is lent.
const GUARD: usize = 16;

/// An element by its bits, so that singles compare as patterns.
pub trait Bits: Copy {
    fn from_word(word: u32) -> Self;
    fn bits(self) -> u32;
}

impl Bits for u32 {
    fn from_word(word: u32) -> u32 {
        word
    }
    fn bits(self) -> u32 {
        self
    }
}

impl Bits for f32 {
    fn from_word(word: u32) -> f32 {
        f32::from_bits(word)
    }
    fn bits(self) -> u32 {
        self.to_bits()
    }
}

impl Bits for u8 {
    fn from_word(word: u32) -> u8 {
        word as u8
    }
    fn bits(self) -> u32 {
        u32::from(self)
    }
}

#[derive(Clone)]
pub struct Lent<T> {
    all: Vec<T>,
}

impl<T: Bits> Lent<T> {
    /// A buffer of any contents.
    pub fn new(len: usize, random: &mut Random) -> Lent<T> {
        Lent { all: (0..len + 2 * GUARD).map(|_| T::from_word(random.word())).collect() }
    }

    /// A buffer that starts with the elements given.
    pub fn with(first: &[T], len: usize, random: &mut Random) -> Lent<T> {
        let mut lent = Lent::new(len, random);
        lent.put(&first[..first.len().min(len)]);
        lent
    }

    pub fn put(&mut self, first: &[T]) {
        self.all[GUARD..GUARD + first.len()].copy_from_slice(first);
    }

    pub fn part(&self) -> &[T] {
        &self.all[GUARD..self.all.len() - GUARD]
    }

    pub fn part_mut(&mut self) -> &mut [T] {
        let end = self.all.len() - GUARD;
        &mut self.all[GUARD..end]
    }

    /// The first place at which two buffers differ, from the first lent element on: (place, here, there).
    pub fn difference(&self, other: &Lent<T>) -> Option<(isize, u32, u32)> {
        let pairs = self.all.iter().zip(&other.all);
        let at = pairs.map(|(a, b)| (a.bits(), b.bits())).enumerate().find(|(_, (a, b))| a != b);
        at.map(|(i, (a, b))| (i as isize - GUARD as isize, a, b))
    }
}
