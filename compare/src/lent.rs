//! Lent space with canaries before and behind it.

const MARGIN: usize = 64;

/// Space of at most a given size, lent in parts that begin at the same place.
pub struct Lent<T> {
    space: Vec<T>,
    length: usize,
    canary: T,
    fill: T,
}

impl<T: Copy + PartialEq> Lent<T> {
    /// `fill` is what lent space holds before a call.
    pub fn new(most: usize, canary: T, fill: T) -> Lent<T> {
        Lent { space: vec![canary; most + 2 * MARGIN], length: 0, canary, fill }
    }

    /// Lends so many elements, filled. What was behind the last loan's end is canary again.
    pub fn lend(&mut self, length: usize) -> &mut [T] {
        let (old, behind) = (MARGIN + self.length, MARGIN + length);
        self.space[..MARGIN].fill(self.canary);
        self.space[MARGIN..behind].fill(self.fill);
        let stale = old.max(behind) + MARGIN;
        self.space[behind..stale].fill(self.canary);
        self.length = length;
        &mut self.space[MARGIN..behind]
    }

    /// Lends a copy.
    pub fn lend_copy(&mut self, from: &[T]) -> &mut [T] {
        let lent = self.lend(from.len());
        lent.copy_from_slice(from);
        lent
    }

    /// What was lent, to be written.
    pub fn loan(&mut self) -> &mut [T] {
        &mut self.space[MARGIN..MARGIN + self.length]
    }

    /// What was lent, as it is now.
    pub fn now(&self) -> &[T] {
        &self.space[MARGIN..MARGIN + self.length]
    }

    /// Whether nothing was written outside of the loan.
    pub fn guarded(&self) -> bool {
        let behind = MARGIN + self.length;
        let outside = [&self.space[..MARGIN], &self.space[behind..behind + MARGIN]];
        outside.iter().all(|part| part.iter().all(|x| *x == self.canary))
    }

    /// Whether the loan holds, from this place on, what it was filled with.
    pub fn filled_from(&self, place: usize) -> bool {
        self.now()[place..].iter().all(|x| *x == self.fill)
    }
}
