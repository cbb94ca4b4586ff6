//! Buffers to hand to the engine, with a guard before and behind, so that every
//! byte that was written is seen.

const GUARD: usize = 16;

/// Entries of a buffer: bytes, or the numbers of a count.
pub trait Entry: Copy + PartialEq {
    /// Neighbouring entries differ, so that one written a place off is seen.
    fn pattern(place: usize) -> Self;
}

impl Entry for u8 {
    fn pattern(place: usize) -> u8 {
        0xA5 ^ (place as u8 % 23)
    }
}

impl Entry for u64 {
    fn pattern(place: usize) -> u64 {
        u64::from_ne_bytes(std::array::from_fn(|byte| u8::pattern(8 * place + byte)))
    }
}

pub struct Guarded<T = u8> {
    entries: Vec<T>,
    before: Vec<T>,
}

impl<T: Entry> Guarded<T> {
    /// A buffer of `length` entries, filled with a pattern.
    pub fn patterned(length: usize) -> Self {
        let before: Vec<T> = (0..length + 2 * GUARD).map(T::pattern).collect();
        Self {
            entries: before.clone(),
            before,
        }
    }

    /// A buffer that holds `entries`.
    pub fn holding(entries: &[T]) -> Self {
        let mut buffer = Self::patterned(entries.len());
        buffer.content().copy_from_slice(entries);
        buffer.before.clone_from(&buffer.entries);
        buffer
    }

    /// The part between the guards.
    pub fn content(&mut self) -> &mut [T] {
        let end = self.entries.len() - GUARD;
        &mut self.entries[GUARD..end]
    }

    /// Whether nothing changed, the guards included.
    pub fn is_untouched(&self) -> bool {
        self.entries == self.before
    }

    /// Whether the guards are whole and `entries` stand between them.
    pub fn holds(&self, entries: &[T]) -> bool {
        let end = self.entries.len() - GUARD;
        self.entries[..GUARD] == self.before[..GUARD]
            && self.entries[GUARD..end] == *entries
            && self.entries[end..] == self.before[end..]
    }
}

#[cfg(test)]
mod tests {
    use super::Guarded;

    #[test]
    fn a_changed_byte_is_seen_wherever_it_stands() {
        for place in 0..36 {
            let mut buffer = Guarded::<u8>::holding(&[1, 2, 3, 4]);
            assert!(buffer.is_untouched() && buffer.holds(&[1, 2, 3, 4]));
            buffer.entries[place] ^= 1;
            assert!(!buffer.is_untouched() && !buffer.holds(&[1, 2, 3, 4]));
        }
    }

    #[test]
    fn what_was_written_is_held() {
        let mut buffer = Guarded::<u8>::patterned(2);
        assert!(buffer.is_untouched());
        buffer.content().copy_from_slice(&[7, 8]);
        assert!(buffer.holds(&[7, 8]) && !buffer.holds(&[7, 9]));
        assert!(!buffer.is_untouched());
    }

    #[test]
    fn a_number_has_guards_as_well() {
        for place in 0..33 {
            let mut buffer = Guarded::<u64>::patterned(1);
            buffer.content()[0] = 5;
            assert!(buffer.holds(&[5]));
            buffer.entries[place] ^= 1 << 40;
            assert!(!buffer.holds(&[5]));
        }
    }
}
