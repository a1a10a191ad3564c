//! R-5 of document 02: the three reducers, and a frame's view of them.

/// Reducers are numbered from 0.
pub const REDUCERS: u16 = 3;

/// What a frame has folded and been handed on, as four words: "the sum, the
/// minimum, the multiplier and the addend".
#[derive(Clone, Copy, Debug, PartialEq, Eq)]
pub struct View {
    pub sum: u32,
    pub minimum: u32,
    pub multiplier: u32,
    pub addend: u32,
}

impl View {
    /// "Each operation has an identity that changes nothing when combined on
    /// either side."
    pub const IDENTITY: View = View {
        sum: 0,
        minimum: u32::MAX,
        multiplier: 1,
        addend: 0,
    };

    /// One value, folded into the reducer of this number. "For reducer 2 the
    /// value divided by 65,536 is the multiplier and its remainder the
    /// addend."
    pub fn of(reducer: u16, value: u32) -> View {
        let mut view = View::IDENTITY;
        match reducer {
            0 => view.sum = value,
            1 => view.minimum = value,
            _ => (view.multiplier, view.addend) = (value / 65_536, value % 65_536),
        }
        view
    }

    /// This view, joined on the left of a later one: "0, the sum modulo
    /// 4,294,967,296; 1, the minimum; 2, the affine map, multiply then add,
    /// modulo 4,294,967,296, earlier map applied first".
    pub fn join(self, later: View) -> View {
        View {
            sum: self.sum.wrapping_add(later.sum),
            minimum: self.minimum.min(later.minimum),
            multiplier: self.multiplier.wrapping_mul(later.multiplier),
            addend: (self.addend.wrapping_mul(later.multiplier)).wrapping_add(later.addend),
        }
    }

    /// In the order of the line `reduced`.
    pub fn words(self) -> [u32; 4] {
        [self.sum, self.minimum, self.multiplier, self.addend]
    }
}

#[cfg(test)]
mod tests {
    use super::*;
    use crate::random::Random;

    fn some_view(random: &mut Random) -> View {
        View {
            sum: random.word(),
            minimum: random.word(),
            multiplier: random.word(),
            addend: random.word(),
        }
    }

    #[test]
    fn one_value() {
        assert_eq!(View::of(0, 7).words(), [7, u32::MAX, 1, 0]);
        assert_eq!(View::of(1, 7).words(), [0, 7, 1, 0]);
        assert_eq!(View::of(2, 7).words(), [0, u32::MAX, 0, 7]);
        assert_eq!(View::of(2, 131_075).words(), [0, u32::MAX, 2, 3]);
        assert_eq!(View::of(2, u32::MAX).words(), [0, u32::MAX, 65_535, 65_535]);
    }

    #[test]
    fn the_identity_changes_nothing_on_either_side() {
        let mut random = Random::new(1);
        for _ in 0..1_000 {
            let view = some_view(&mut random);
            assert_eq!(View::IDENTITY.join(view), view);
            assert_eq!(view.join(View::IDENTITY), view);
        }
    }

    #[test]
    fn grouping_never_matters() {
        let mut random = Random::new(2);
        for _ in 0..1_000 {
            let [a, b, c] = [0; 3].map(|_| some_view(&mut random));
            assert_eq!(a.join(b).join(c), a.join(b.join(c)));
        }
    }

    /// x times 2 plus 1, then times 3 plus 4: 6 x + 7.
    #[test]
    fn the_earlier_map_is_applied_first() {
        let [first, second] = [(2, 1), (3, 4)].map(|(multiplier, addend)| View {
            multiplier,
            addend,
            ..View::IDENTITY
        });
        let joined = first.join(second);
        assert_eq!([joined.multiplier, joined.addend], [6, 7]);
        let joined = second.join(first);
        assert_eq!([joined.multiplier, joined.addend], [6, 9]);
    }
}
