/// A record of the frame table, as splitter.h has it: its fields are an image's words, in this order. In a free
/// place all but `parent` is zero.
#[derive(Clone, Copy, Debug, PartialEq, Eq, Hash)]
#[repr(C)]
pub struct Frame {
    /// 1, or 0 in a free place.
    pub live: u32,
    /// The parent's place, [`NONE`](crate::NONE) for Main; in a free place the next free one, or `NONE`.
    pub parent: u32,
    pub depth: u32,
    /// Its live children.
    pub outstanding: u32,
    /// 1 on a suspended frame: it waits, at a sync or as returning; else 0.
    pub waiting: u32,
    /// The root of its tree in the pool.
    pub root: u32,
    /// 1 on a suspended frame that waits as returning, else 0.
    pub returning: u32,
    /// This and the next three: what was folded and has come to this frame.
    pub view_sum: u32,
    pub view_min: u32,
    pub view_multiplier: u32,
    pub view_addend: u32,
    /// The place of the next younger live child of the same parent, or [`NONE`](crate::NONE).
    pub younger: u32,
}

impl Frame {
    /// The words of a record.
    pub const WORDS: usize = 12;

    /// Zeros: what a table may hold before a start, and what a reading refused as unsound leaves.
    pub const ZERO: Frame = Frame::from_words([0; Frame::WORDS]);

    /// The record of these words.
    pub const fn from_words(words: [u32; Frame::WORDS]) -> Frame {
        let [live, parent, depth, outstanding, waiting, root, returning, ..] = words;
        let [.., view_sum, view_min, view_multiplier, view_addend, younger] = words;
        Frame {
            live,
            parent,
            depth,
            outstanding,
            waiting,
            root,
            returning,
            view_sum,
            view_min,
            view_multiplier,
            view_addend,
            younger,
        }
    }

    /// Its words.
    pub const fn to_words(self) -> [u32; Frame::WORDS] {
        let Frame { live, parent, depth, outstanding, waiting, root, returning, .. } = self;
        let Frame { view_sum, view_min, view_multiplier, view_addend, younger, .. } = self;
        [
            live,
            parent,
            depth,
            outstanding,
            waiting,
            root,
            returning,
            view_sum,
            view_min,
            view_multiplier,
            view_addend,
            younger,
        ]
    }
}

impl Default for Frame {
    fn default() -> Frame {
        Frame::ZERO
    }
}
