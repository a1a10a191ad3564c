//! The figures of "The split tree and its pool": H, the levels and T(n).

/// "H is the least number with 2^H at least n."
pub fn height(splitters: usize) -> usize {
    let mut height = 0;
    while (1 << height) < splitters {
        height += 1;
    }
    height
}

/// "Level l has n / 2^l nodes, rounded up."
pub fn level_nodes(splitters: usize, level: usize) -> usize {
    splitters.div_ceil(1 << level)
}

/// "T(n) is the sum over levels."
pub fn tree_nodes(splitters: usize) -> usize {
    (0..=height(splitters))
        .map(|level| level_nodes(splitters, level))
        .sum()
}

/// A path from the root to a leaf.
pub fn path_nodes(splitters: usize) -> usize {
    height(splitters) + 1
}

#[cfg(test)]
mod tests {
    use super::*;

    #[test]
    fn heights() {
        let figures = [
            (1, 0),
            (2, 1),
            (3, 2),
            (4, 2),
            (5, 3),
            (8, 3),
            (9, 4),
            (128, 7),
            (129, 8),
            (255, 8),
            (256, 8),
        ];
        for (splitters, expected) in figures {
            assert_eq!(height(splitters), expected, "H for n = {splitters}");
        }
    }

    #[test]
    fn tree_sizes() {
        let figures = [
            (1, 1),
            (2, 3),
            (3, 6),
            (4, 7),
            (5, 11),
            (6, 12),
            (7, 14),
            (8, 15),
            (9, 20),
            (128, 255),
            (129, 264),
            (255, 510),
            (256, 511),
        ];
        for (splitters, expected) in figures {
            assert_eq!(tree_nodes(splitters), expected, "T({splitters})");
        }
    }

    #[test]
    fn levels_of_five() {
        let levels: Vec<usize> = (0..=height(5)).map(|l| level_nodes(5, l)).collect();
        assert_eq!(levels, [5, 3, 2, 1]);
    }

    #[test]
    fn every_root_is_one_node() {
        for splitters in 1..=256 {
            assert_eq!(level_nodes(splitters, height(splitters)), 1);
        }
    }
}
