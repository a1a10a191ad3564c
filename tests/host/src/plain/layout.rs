//! The words of a node: R-8's two, and the four from before it, with which they are compared. A node's level tells which of an inner node, a
//! leaf and a free node is meant.

use super::NONE;

/// A node's words in a pool. The first is its holders (the reference count).
pub trait Layout: Copy {
    const WORDS: usize;
    /// A link to no node.
    const NO_LINK: u32;

    /// The whole nodes of a pool.
    fn nodes(pool: &[u32]) -> &[Self];
    fn nodes_mut(pool: &mut [u32]) -> &mut [Self];

    /// With one holder.
    fn inner(left: u32, right: u32) -> Self;
    /// With one holder.
    fn leaf(value: u32) -> Self;
    fn free(next: u32) -> Self;

    fn holders(&self) -> u32;
    fn holders_mut(&mut self) -> &mut u32;
    /// An inner node's left link for 0, its right one for 1.
    fn link(&self, side: u32) -> u32;
    fn set_link(&mut self, side: u32, to: u32);
    fn value(&self) -> u32;
    fn set_value(&mut self, value: u32);
    fn next_free(&self) -> u32;

    /// Whether all words are such as an inner node, a leaf or a free node has, but for its holders, links, value and next node.
    fn may_be_inner(&self) -> bool;
    fn may_be_leaf(&self) -> bool;
    fn may_be_free(&self) -> bool;
}

/// Holders, then left plus 65,536 times right, the value, or the next free node.
impl Layout for [u32; 2] {
    const WORDS: usize = 2;
    const NO_LINK: u32 = 65_535;

    #[inline(always)]
    fn nodes(pool: &[u32]) -> &[Self] {
        pool.as_chunks().0
    }
    #[inline(always)]
    fn nodes_mut(pool: &mut [u32]) -> &mut [Self] {
        pool.as_chunks_mut().0
    }

    #[inline(always)]
    fn inner(left: u32, right: u32) -> Self {
        [1, left | right << 16]
    }
    #[inline(always)]
    fn leaf(value: u32) -> Self {
        [1, value]
    }
    #[inline(always)]
    fn free(next: u32) -> Self {
        [0, next]
    }

    #[inline(always)]
    fn holders(&self) -> u32 {
        self[0]
    }
    #[inline(always)]
    fn holders_mut(&mut self) -> &mut u32 {
        &mut self[0]
    }
    #[inline(always)]
    fn link(&self, side: u32) -> u32 {
        let links = self[1];
        if side == 0 {
            links & 0xFFFF
        } else {
            links >> 16
        }
    }
    #[inline(always)]
    fn set_link(&mut self, side: u32, to: u32) {
        self[1] = if side == 0 {
            self[1] & !0xFFFF | to
        } else {
            self[1] & 0xFFFF | to << 16
        };
    }
    #[inline(always)]
    fn value(&self) -> u32 {
        self[1]
    }
    #[inline(always)]
    fn set_value(&mut self, value: u32) {
        self[1] = value;
    }
    #[inline(always)]
    fn next_free(&self) -> u32 {
        self[1]
    }

    #[inline(always)]
    fn may_be_inner(&self) -> bool {
        true
    }
    #[inline(always)]
    fn may_be_leaf(&self) -> bool {
        true
    }
    #[inline(always)]
    fn may_be_free(&self) -> bool {
        true
    }
}

/// Holders, left, right, value; a free node is 0, the next free node, 0, 0.
impl Layout for [u32; 4] {
    const WORDS: usize = 4;
    const NO_LINK: u32 = NONE;

    fn nodes(pool: &[u32]) -> &[Self] {
        pool.as_chunks().0
    }
    fn nodes_mut(pool: &mut [u32]) -> &mut [Self] {
        pool.as_chunks_mut().0
    }

    fn inner(left: u32, right: u32) -> Self {
        [1, left, right, 0]
    }
    fn leaf(value: u32) -> Self {
        [1, NONE, NONE, value]
    }
    fn free(next: u32) -> Self {
        [0, next, 0, 0]
    }

    fn holders(&self) -> u32 {
        self[0]
    }
    fn holders_mut(&mut self) -> &mut u32 {
        &mut self[0]
    }
    fn link(&self, side: u32) -> u32 {
        self[1 + side as usize]
    }
    fn set_link(&mut self, side: u32, to: u32) {
        self[1 + side as usize] = to;
    }
    fn value(&self) -> u32 {
        self[3]
    }
    fn set_value(&mut self, value: u32) {
        self[3] = value;
    }
    fn next_free(&self) -> u32 {
        self[1]
    }

    fn may_be_inner(&self) -> bool {
        self[3] == 0
    }
    fn may_be_leaf(&self) -> bool {
        self[1..3] == [NONE, NONE]
    }
    fn may_be_free(&self) -> bool {
        self[2..] == [0, 0]
    }
}
