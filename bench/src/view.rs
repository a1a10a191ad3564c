//! R-5's reducers, as the copying machine has them: a frame's view, and what joins and folds do to it.

use crate::tape::{AFFINE, MIN, SUM};

/// Multiply, then add, modulo 4,294,967,296.
#[derive(Clone, Copy)]
struct Map {
    multiplier: u32,
    addend: u32,
}

impl Map {
    /// This map, then a later one.
    fn then(self, later: Map) -> Map {
        let apply = |x: u32| x.wrapping_mul(later.multiplier);
        Map {
            multiplier: apply(self.multiplier),
            addend: apply(self.addend).wrapping_add(later.addend),
        }
    }
}

#[derive(Clone, Copy)]
pub struct View {
    sum: u32,
    min: u32,
    map: Map,
}

impl View {
    pub const IDENTITY: View = View {
        sum: 0,
        min: u32::MAX,
        map: Map {
            multiplier: 1,
            addend: 0,
        },
    };

    /// This view on the left of a later one.
    pub fn join(self, later: View) -> View {
        View {
            sum: self.sum.wrapping_add(later.sum),
            min: self.min.min(later.min),
            map: self.map.then(later.map),
        }
    }

    /// None if there is no such reducer.
    pub fn fold(&mut self, reducer: usize, value: u32) -> Option<()> {
        match reducer {
            SUM => self.sum = self.sum.wrapping_add(value),
            MIN => self.min = self.min.min(value),
            AFFINE => {
                self.map = self.map.then(Map {
                    multiplier: value / 65_536,
                    addend: value % 65_536,
                });
            }
            _ => return None,
        }
        Some(())
    }

    /// The sum, the minimum, the multiplier and the addend.
    pub fn words(self) -> [u32; 4] {
        [self.sum, self.min, self.map.multiplier, self.map.addend]
    }
}
