//! Memory to lend: a part in the middle of a larger whole, filled with a
//! pattern, so that a write where none belongs is seen, beyond the part too.

/// Numbers that memory is filled with.
pub trait Pattern: Copy + PartialEq {
    /// The number that stands at a place before the call.
    fn at(place: usize) -> Self;
}

impl Pattern for u64 {
    fn at(place: usize) -> u64 {
        (place as u64 + 1).wrapping_mul(0x9e37_79b9_7f4a_7c15)
    }
}

impl Pattern for u32 {
    fn at(place: usize) -> u32 {
        (u64::at(place) >> 32) as u32
    }
}

/// How many numbers stand before the lent part, and how many after it.
const BEYOND: usize = 8;

/// Memory of which a part is lent.
#[derive(Clone, PartialEq)]
pub struct Lent<T> {
    whole: Vec<T>,
}

impl<T: Pattern> Lent<T> {
    /// Memory whose lent part has the given length.
    pub fn new(length: usize) -> Self {
        let mut made = Lent { whole: Vec::new() };
        made.renew(length);
        made
    }

    /// Fills the memory anew, for a lent part of the given length.
    pub fn renew(&mut self, length: usize) {
        self.whole.clear();
        self.whole.extend((0..length + 2 * BEYOND).map(T::at));
    }

    /// The lent part.
    pub fn part(&mut self) -> &mut [T] {
        let end = self.whole.len() - BEYOND;
        &mut self.whole[BEYOND..end]
    }

    /// The lent part, to look at.
    pub fn seen(&self) -> &[T] {
        &self.whole[BEYOND..self.whole.len() - BEYOND]
    }

    /// The first place, counted from the start of the lent part, where this
    /// memory is not the same as other memory of the same length.
    pub fn differs_from(&self, other: &Self) -> Option<isize> {
        let mut pairs = self.whole.iter().zip(&other.whole);
        pairs.position(|(l, r)| l != r).map(|place| place as isize - BEYOND as isize)
    }
}
