//! A work slice that begins at a multiple of 64 bytes, wherever the allocator puts it: what the C library's memset takes depends on that.

/// Bytes, and words.
const ALIGNMENT: usize = 64;
const MORE: usize = ALIGNMENT / 4;

pub struct Work {
    words: Vec<u32>,
    first: usize,
    length: usize,
}

impl Work {
    pub fn of(length: usize) -> Self {
        let words = vec![0; length + MORE];
        Work {
            first: words.as_ptr().align_offset(ALIGNMENT),
            words,
            length,
        }
    }

    pub fn words(&mut self) -> &mut [u32] {
        &mut self.words[self.first..][..self.length]
    }
}
