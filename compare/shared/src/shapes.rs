//! Shapes of networks for generated scripts.

use crate::rng::Rng;
use second::tree::UnitNumber;

/// Two units to be linked.
pub type Pair = (UnitNumber, UnitNumber);

/// How the links of a network are laid.
#[derive(Clone, Copy, Debug, PartialEq, Eq)]
pub enum Shape {
    /// Each pair with one and the same chance, drawn for the network.
    Random,
    /// One after the other.
    Chain,
    /// A chain with its ends joined.
    Ring,
    /// One in the middle.
    Star,
    /// Every pair.
    Mesh,
    /// Two meshes joined by one link.
    TwoClusters,
    /// Rows and columns.
    Grid,
}

/// All shapes.
pub const SHAPES: [Shape; 7] = [
    Shape::Random,
    Shape::Chain,
    Shape::Ring,
    Shape::Star,
    Shape::Mesh,
    Shape::TwoClusters,
    Shape::Grid,
];

/// The pairs to be linked, with units numbered and pairs ordered at random.
pub fn pairs(shape: Shape, count: u8, rng: &mut Rng) -> Vec<Pair> {
    let mut names: Vec<UnitNumber> = (0..count).collect();
    if rng.chance(60) {
        rng.shuffle(&mut names);
    }
    let density = rng.between(15, 85);
    let mut chosen = Vec::new();
    for b in 0..count {
        for a in 0..b {
            let is_linked = match shape {
                Shape::Random => rng.chance(density),
                other => links(other, count, a, b),
            };
            if is_linked {
                chosen.push((names[usize::from(a)], names[usize::from(b)]));
            }
        }
    }
    if rng.chance(60) {
        rng.shuffle(&mut chosen);
    }
    chosen
}

/// Whether a shape that isn't random links places a and b, a before b.
fn links(shape: Shape, count: u8, a: u8, b: u8) -> bool {
    match shape {
        Shape::Random | Shape::Mesh => true,
        Shape::Chain => b == a + 1,
        Shape::Ring => b == a + 1 || (a == 0 && b + 1 == count),
        Shape::Star => a == 0,
        Shape::TwoClusters => {
            let half = count / 2;
            (a < half) == (b < half) || (a == 0 && b == half)
        }
        Shape::Grid => {
            let width = (1..=count).find(|width| width * width >= count);
            let width = width.unwrap_or(count);
            b == a + width || (b == a + 1 && b / width == a / width)
        }
    }
}

#[cfg(test)]
mod tests {
    use super::*;
    use crate::draw::{FEWEST, MOST};
    use std::collections::BTreeSet;

    fn number_of_pairs(shape: Shape, count: u8) -> usize {
        let found = pairs(shape, count, &mut Rng::new(7));
        let distinct: BTreeSet<Pair> = found.iter().map(|&(a, b)| (a.min(b), a.max(b))).collect();
        assert_eq!(distinct.len(), found.len(), "{shape:?} {count}");
        assert!(distinct.iter().all(|&(a, b)| a < b && b < count));
        found.len()
    }

    #[test]
    fn shapes_have_their_number_of_links() {
        for count in FEWEST as u8..=MOST as u8 {
            let units = usize::from(count);
            assert_eq!(number_of_pairs(Shape::Chain, count), units - 1);
            assert_eq!(number_of_pairs(Shape::Star, count), units - 1);
            assert_eq!(number_of_pairs(Shape::Mesh, count), units * (units - 1) / 2);
            number_of_pairs(Shape::Random, count);
        }
        assert_eq!(number_of_pairs(Shape::Ring, 6), 6);
        assert_eq!(number_of_pairs(Shape::TwoClusters, 8), 6 + 6 + 1);
        assert_eq!(number_of_pairs(Shape::Grid, 4), 4);
        assert_eq!(number_of_pairs(Shape::Grid, 9), 3 * 2 + 2 * 3);
        assert_eq!(number_of_pairs(Shape::Grid, 16), 3 * 4 + 4 * 3);
    }
}
