//! A lent slice with words of a known pattern before and after it.

const MARGIN: usize = 24;

pub trait Pattern: Copy + PartialEq {
    fn pattern(place: usize) -> Self;
}

impl Pattern for u8 {
    fn pattern(place: usize) -> Self {
        (place * 37 + 165) as u8
    }
}

impl Pattern for u32 {
    fn pattern(place: usize) -> Self {
        0xa5c3_0f69 ^ (place as u32).wrapping_mul(0x0101_4325)
    }
}

impl Pattern for u64 {
    fn pattern(place: usize) -> Self {
        u64::from(u32::pattern(place)) << 32 | u64::from(u32::pattern(place + 1))
    }
}

impl Pattern for i32 {
    fn pattern(place: usize) -> Self {
        u32::pattern(place) as i32
    }
}

impl Pattern for i64 {
    fn pattern(place: usize) -> Self {
        u64::pattern(place) as i64
    }
}

pub struct Guarded<T> {
    buffer: Vec<T>,
    margin: usize,
}

impl<T: Pattern> Guarded<T> {
    pub fn around(part: &[T]) -> Self {
        Self::shifted(part, 0)
    }

    /// The slice starts so many words later, so that it can stand at other places modulo 16 bytes.
    pub fn shifted(part: &[T], shift: usize) -> Self {
        let margin = MARGIN + shift;
        let mut buffer = Vec::with_capacity(part.len() + 2 * margin);
        buffer.extend((0..margin).map(T::pattern));
        buffer.extend_from_slice(part);
        buffer.extend((margin..2 * margin).map(T::pattern));
        Self { buffer, margin }
    }

    pub fn part(&self) -> &[T] {
        &self.buffer[self.margin..self.buffer.len() - self.margin]
    }

    pub fn part_mut(&mut self) -> &mut [T] {
        let end = self.buffer.len() - self.margin;
        &mut self.buffer[self.margin..end]
    }

    /// Are the words before and after as they were?
    pub fn intact(&self) -> bool {
        let (before, rest) = self.buffer.split_at(self.margin);
        let after = &rest[rest.len() - self.margin..];
        before.iter().chain(after).enumerate().all(|(place, word)| *word == T::pattern(place))
    }
}
