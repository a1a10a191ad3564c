//! R-7's clocks beside an engine: what a step does to them, in lent words. An engine without a report has none, and its code is as if there
//! were no such thing.

/// What an engine tells of its accepted steps.
pub trait Beside {
    /// The clock at which a frame ends.
    type Time: Copy;

    /// A read, write or fold of the frame.
    fn costs(&mut self, frame: usize);
    fn spawns(&mut self, parent: usize, child: u32);
    /// A sync is accepted: its cost. It may pass later.
    fn syncs(&mut self);
    fn passes(&mut self, frame: usize);
    /// The frame ends by its own return.
    fn ends(&self, frame: usize) -> Self::Time;
    /// The frame, which waits in its return, ends with its last child.
    fn ends_too(&self, frame: usize, child: Self::Time) -> Self::Time;
    fn hears(&mut self, parent: u32, child: Self::Time);
    fn finishes(&mut self, main: Self::Time);
}

pub struct Untimed;

impl Beside for Untimed {
    type Time = ();

    #[inline(always)]
    fn costs(&mut self, _: usize) {}
    #[inline(always)]
    fn spawns(&mut self, _: usize, _: u32) {}
    #[inline(always)]
    fn syncs(&mut self) {}
    #[inline(always)]
    fn passes(&mut self, _: usize) {}
    #[inline(always)]
    fn ends(&self, _: usize) {}
    #[inline(always)]
    fn ends_too(&self, _: usize, (): ()) {}
    #[inline(always)]
    fn hears(&mut self, _: u32, (): ()) {}
    #[inline(always)]
    fn finishes(&mut self, (): ()) {}
}

/// Of each place its frame's own clock and the latest of its ended children's.
pub struct Clocks<'a> {
    words: &'a mut [[u64; 2]],
    pub work: u64,
    /// 0 while Main lives.
    pub span: u64,
}

impl Clocks<'_> {
    /// At a start, in any words.
    pub fn begin(words: &mut [u64]) -> Clocks<'_> {
        words.fill(0);
        let (words, _) = words.as_chunks_mut();
        Clocks {
            words,
            work: 0,
            span: 0,
        }
    }
}

impl Beside for Clocks<'_> {
    type Time = u64;

    #[inline(always)]
    fn costs(&mut self, frame: usize) {
        self.words[frame][0] += 1;
        self.work += 1;
    }

    #[inline(always)]
    fn spawns(&mut self, parent: usize, child: u32) {
        self.costs(parent);
        self.words[child as usize] = [self.words[parent][0], 0];
    }

    #[inline(always)]
    fn syncs(&mut self) {
        self.work += 1;
    }

    #[inline(always)]
    fn passes(&mut self, frame: usize) {
        self.words[frame][0] = self.ends(frame) + 1;
    }

    #[inline(always)]
    fn ends(&self, frame: usize) -> u64 {
        let [own, latest] = self.words[frame];
        own.max(latest)
    }

    #[inline(always)]
    fn ends_too(&self, frame: usize, child: u64) -> u64 {
        self.ends(frame).max(child)
    }

    #[inline(always)]
    fn hears(&mut self, parent: u32, child: u64) {
        let latest = &mut self.words[parent as usize][1];
        *latest = child.max(*latest);
    }

    #[inline(always)]
    fn finishes(&mut self, main: u64) {
        self.span = main;
    }
}
