//! What a searching call gets besides puzzle and marks.

use std::fmt::{self, Debug, Display};

use inputs::{Rng, SeededRng};

pub trait Rest: Copy + Debug + Display + 'static {
    /// Good ones for lists of inputs, the one for long lists first.
    fn few(size: usize) -> Vec<Self>;

    /// Good ones and those just beside.
    fn around(size: usize) -> Vec<Self>;

    /// A good one.
    fn drawn(rng: &mut SeededRng, size: usize) -> Self;

    /// Anything.
    fn damaged(rng: &mut SeededRng) -> Self;

    /// What corresponds to this one at a smaller size.
    fn at_size(&self, from: usize, to: usize) -> Self;

    /// Simpler ones, the simplest first.
    fn simpler(&self, size: usize) -> Vec<Self>;
}

/// The cap of a count.
#[derive(Clone, Copy, Debug)]
pub struct Cap(pub u64);

impl Display for Cap {
    fn fmt(&self, f: &mut fmt::Formatter<'_>) -> fmt::Result {
        write!(f, "cap {}", self.0)
    }
}

impl Rest for Cap {
    fn few(_size: usize) -> Vec<Self> {
        [2, 0, 1, 3].map(Cap).to_vec()
    }

    fn around(_size: usize) -> Vec<Self> {
        [0, 2, u64::MAX].map(Cap).to_vec()
    }

    fn drawn(rng: &mut SeededRng, _size: usize) -> Self {
        Cap([0, 1, 1, 2, 2, 2, 3, 3, 1000][rng.below(9)])
    }

    fn damaged(rng: &mut SeededRng) -> Self {
        Cap(rng.next_u64())
    }

    fn at_size(&self, _from: usize, _to: usize) -> Self {
        *self
    }

    fn simpler(&self, _size: usize) -> Vec<Self> {
        let lower = [0, 1, 2, self.0 / 2, self.0.saturating_sub(1)];
        let lower = lower.into_iter().filter(|&cap| cap < self.0);
        lower.map(Cap).collect()
    }
}

/// The bytes in the buffer of a call that has so many for each cell.
#[derive(Clone, Copy, Debug)]
pub struct Room<const EACH: usize>(pub usize);

/// One byte for each cell of a grid.
pub type Cells = Room<1>;

/// Two bytes for each entry of a candidate table.
pub type Table = Room<2>;

impl<const EACH: usize> Room<EACH> {
    /// The right length; sizes above 9 are never accepted.
    fn exact(size: usize) -> usize {
        EACH * size.min(10).pow(2)
    }
}

impl<const EACH: usize> Display for Room<EACH> {
    fn fmt(&self, f: &mut fmt::Formatter<'_>) -> fmt::Result {
        write!(f, "a buffer of {} bytes", self.0)
    }
}

impl<const EACH: usize> Rest for Room<EACH> {
    fn few(size: usize) -> Vec<Self> {
        vec![Room(Self::exact(size))]
    }

    fn around(size: usize) -> Vec<Self> {
        let mut lengths = inputs::lengths_around(size.min(10));
        let exact = Self::exact(size);
        lengths.extend([exact.saturating_sub(1), exact, exact + 1]);
        lengths.sort_unstable();
        lengths.dedup();
        lengths.into_iter().map(Room).collect()
    }

    fn drawn(_rng: &mut SeededRng, size: usize) -> Self {
        Room(Self::exact(size))
    }

    fn damaged(rng: &mut SeededRng) -> Self {
        Room(rng.below(EACH * 102))
    }

    fn at_size(&self, from: usize, to: usize) -> Self {
        if self.0 == Self::exact(from) {
            Room(Self::exact(to))
        } else {
            *self
        }
    }

    fn simpler(&self, size: usize) -> Vec<Self> {
        let exact = Self::exact(size);
        let nearer = [exact, exact + 1, exact.saturating_sub(1), 0];
        let nearer = nearer
            .into_iter()
            .filter(|length| length.abs_diff(exact) < self.0.abs_diff(exact));
        nearer.map(Room).collect()
    }
}
