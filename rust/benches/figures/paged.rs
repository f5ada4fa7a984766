//! Words that begin where a page of memory does.

const PAGE: usize = 4096;

/// Each contender's words lie alike, so that none has an advantage by where they happen to be.
pub struct Paged {
    room: Vec<u32>,
    start: usize,
    count: usize,
}

impl Paged {
    pub fn of(words: &[u32]) -> Self {
        let mut room = vec![0; words.len() + PAGE / size_of::<u32>()];
        let (start, count) = (room.as_ptr().align_offset(PAGE), words.len());
        room[start..][..count].copy_from_slice(words);
        Self { room, start, count }
    }

    pub fn words(&self) -> &[u32] {
        &self.room[self.start..][..self.count]
    }

    pub fn words_mut(&mut self) -> &mut [u32] {
        &mut self.room[self.start..][..self.count]
    }
}
