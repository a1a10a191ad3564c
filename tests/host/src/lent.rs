//! Memory lent to the library: a slice with guard words on both sides. The number of guard words is odd, so that nothing is aligned
//! better than C asks. Without guard words the slice is a heap block of its own, whose ends memcheck watches.

pub struct Lent<T> {
    buffer: Box<[T]>,
    guard: usize,
    guard_word: T,
}

impl<T: Copy + PartialEq> Lent<T> {
    pub fn new(content: &[T], guard: usize, guard_word: T) -> Lent<T> {
        let mut buffer = Vec::with_capacity(content.len() + 2 * guard);
        buffer.resize(guard, guard_word);
        buffer.extend_from_slice(content);
        buffer.resize(content.len() + 2 * guard, guard_word);
        Lent {
            buffer: buffer.into_boxed_slice(),
            guard,
            guard_word,
        }
    }

    pub fn slice(&mut self) -> &mut [T] {
        let end = self.buffer.len() - self.guard;
        &mut self.buffer[self.guard..end]
    }

    /// What the slice holds now, or none if a guard word has changed.
    pub fn back(mut self) -> Option<Vec<T>> {
        let end = self.buffer.len() - self.guard;
        let whole = |words: &[T]| words.iter().all(|word| *word == self.guard_word);
        let intact = whole(&self.buffer[..self.guard]) && whole(&self.buffer[end..]);
        intact.then(|| self.slice().to_vec())
    }
}
