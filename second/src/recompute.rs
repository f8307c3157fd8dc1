//! Recomputing a unit's tree from its own links and its neighbours' copies.
//!
//! The numbers 1 to 4 in the comments are those of the rules under
//! "Recomputing the tree".

use crate::tree::{Distance, Link, Tree, UnitNumber};
use std::collections::BTreeMap;

/// What a unit keeps "for each neighbour whose link is up: the cost, the copy
/// of its tree, whether an acknowledgment is awaited".
#[derive(Clone, Debug, PartialEq, Eq)]
pub struct Neighbour {
    /// The cost of the link to the neighbour.
    pub cost: u16,
    /// The neighbour's tree as its updates have told it, rooted there.
    pub copy: Tree,
    /// Whether an update to the neighbour still waits for its acknowledgment.
    pub awaited: bool,
}

/// A unit's neighbours by their numbers. A link is up exactly when its other
/// end is in the map.
pub type Neighbours = BTreeMap<UnitNumber, Neighbour>;

/// A link that the new tree may use.
#[derive(Clone, Copy, Debug, PartialEq, Eq)]
struct TakenLink {
    from: UnitNumber,
    to: UnitNumber,
    cost: u16,
}

/// The new tree of the unit `me`. It depends on costs and copies alone.
pub fn recompute(me: UnitNumber, count: u8, neighbours: &Neighbours) -> Tree {
    let links = taken_links(me, count, neighbours);
    let distances = shortest_distances(me, count, &links);
    let mut tree = Tree::empty(me);
    for unit in (0..count).filter(|&unit| unit != me) {
        if let Some(link) = lowest_head(unit, &distances, &links) {
            tree.entries.insert(unit, link);
        }
    }
    tree
}

/// 2: "For each unit j other than this one with a finite distance in some copy,
/// the preferred neighbour is the one with the least sum of link cost and j's
/// distance in its copy; of equal sums the lowest number."
///
/// 1: "Each neighbour k counts as the root of its own copy, at 0 there, even
/// when the copy is empty" holds by [`Tree::distance`]. Neighbours are looked
/// at in rising order and only a smaller sum displaces an earlier one.
fn preferred_neighbour(j: UnitNumber, neighbours: &Neighbours) -> Option<UnitNumber> {
    let mut preferred = None;
    let mut least = Distance::Unreachable;
    for (&k, neighbour) in neighbours {
        let sum = neighbour.copy.distance(j).plus(neighbour.cost);
        if sum < least {
            least = sum;
            preferred = Some(k);
        }
    }
    preferred
}

/// 2: "Every link out of j in that neighbour's copy is taken." 3: "The links
/// out of this unit are its own up links with their present costs, and no
/// others."
fn taken_links(me: UnitNumber, count: u8, neighbours: &Neighbours) -> Vec<TakenLink> {
    let mut links = Vec::new();
    for (&to, neighbour) in neighbours {
        let cost = neighbour.cost;
        links.push(TakenLink { from: me, to, cost });
    }
    for j in (0..count).filter(|&j| j != me) {
        if let Some(k) = preferred_neighbour(j, neighbours) {
            links.extend(links_out_of(j, &neighbours[&k].copy));
        }
    }
    links
}

/// The links out of j in a tree: to each unit whose head is j.
fn links_out_of(j: UnitNumber, tree: &Tree) -> impl Iterator<Item = TakenLink> + '_ {
    let heads_at_j = tree.entries.iter().filter(move |(_, link)| link.head == j);
    heads_at_j.map(move |(&to, link)| TakenLink {
        from: j,
        to,
        cost: link.cost,
    })
}

/// 4: "The new tree has the shortest distances over the taken links." A plain
/// repetition: every link may lower the distance of its end, until none does.
fn shortest_distances(
    me: UnitNumber,
    count: u8,
    links: &[TakenLink],
) -> BTreeMap<UnitNumber, Distance> {
    let mut distances: BTreeMap<_, _> = (0..count).map(|u| (u, Distance::Unreachable)).collect();
    distances.insert(me, Distance::ZERO);
    let mut lowered = true;
    while lowered {
        lowered = false;
        for link in links {
            let offered = distances[&link.from].plus(link.cost);
            if offered < distances[&link.to] {
                distances.insert(link.to, offered);
                lowered = true;
            }
        }
    }
    distances
}

/// 4: "A unit's head is the lowest-numbered one that gives its shortest
/// distance." A unit that no link reaches has none, hence no entry. Between two
/// units at most one link is taken, so the head decides the cost.
fn lowest_head(
    unit: UnitNumber,
    distances: &BTreeMap<UnitNumber, Distance>,
    links: &[TakenLink],
) -> Option<Link> {
    let shortest = distances[&unit];
    let giving = links.iter().filter(|link| {
        link.to == unit && shortest.is_finite() && distances[&link.from].plus(link.cost) == shortest
    });
    let lowest = giving.min_by_key(|link| link.from)?;
    Some(Link {
        head: lowest.from,
        cost: lowest.cost,
    })
}

#[cfg(test)]
mod tests {
    use super::*;

    /// A neighbour at a cost whose copy has entries (unit, head, cost).
    fn neighbour(
        number: UnitNumber,
        cost: u16,
        entries: &[(UnitNumber, UnitNumber, u16)],
    ) -> (UnitNumber, Neighbour) {
        let mut copy = Tree::empty(number);
        for &(unit, head, cost) in entries {
            copy.entries.insert(unit, Link { head, cost });
        }
        let awaited = false;
        (
            number,
            Neighbour {
                cost,
                copy,
                awaited,
            },
        )
    }

    fn link(head: UnitNumber, cost: u16) -> Option<Link> {
        Some(Link { head, cost })
    }

    fn entry(tree: &Tree, unit: UnitNumber) -> Option<Link> {
        tree.entries.get(&unit).copied()
    }

    #[test]
    fn empty_copies_give_the_own_links() {
        let neighbours = Neighbours::from([neighbour(1, 5, &[]), neighbour(3, 2, &[])]);
        let tree = recompute(0, 4, &neighbours);
        assert_eq!(tree.root, 0);
        assert_eq!(entry(&tree, 1), link(0, 5));
        assert_eq!(entry(&tree, 2), None);
        assert_eq!(entry(&tree, 3), link(0, 2));
    }

    /// Unit 3 is at 2 through 1 and through 2. The lowest number, 1, says that
    /// 4 is 5 beyond 3. Preferring 2 would give 4 the entry (3, 7) at
    /// distance 9.
    #[test]
    fn of_equal_sums_the_lowest_neighbour_is_preferred() {
        let neighbours = Neighbours::from([
            neighbour(1, 1, &[(3, 1, 1), (4, 3, 5)]),
            neighbour(2, 1, &[(3, 2, 1), (4, 3, 7)]),
        ]);
        assert_eq!(preferred_neighbour(3, &neighbours), Some(1));
        let tree = recompute(0, 5, &neighbours);
        assert_eq!(entry(&tree, 4), link(3, 5));
        assert_eq!(tree.distance(4), Distance::Finite(7));
    }

    /// The figure on the importance of ties: all costs are 1, units 3 and 4 are
    /// equally far through neighbours 1 and 2, copy 1 goes on from 3 to 5 and
    /// copy 2 from 4 to 5. Preferring 2 for unit 3 and 1 for unit 4 would take
    /// no link to 5 at all: its entry would vanish.
    #[test]
    fn a_path_does_not_vanish_by_ties() {
        let neighbours = Neighbours::from([
            neighbour(1, 1, &[(3, 1, 1), (4, 1, 1), (5, 3, 1)]),
            neighbour(2, 1, &[(3, 2, 1), (4, 2, 1), (5, 4, 1)]),
        ]);
        let tree = recompute(0, 6, &neighbours);
        assert_eq!(entry(&tree, 5), link(3, 1));
        assert_eq!(tree.distance(5), Distance::Finite(3));
    }

    /// Unit 3 is at 4 over head 1 (3 and 1) and over head 2 (1 and 3). Unit 2
    /// is nearer and would come first if heads were taken by arrival; that
    /// choice would give the entry (2, 3).
    #[test]
    fn of_equal_heads_the_lowest_is_taken() {
        let neighbours =
            Neighbours::from([neighbour(1, 3, &[(3, 1, 1)]), neighbour(2, 1, &[(3, 2, 3)])]);
        let tree = recompute(0, 4, &neighbours);
        assert_eq!(tree.distance(3), Distance::Finite(4));
        assert_eq!(entry(&tree, 3), link(1, 1));
    }

    /// Copy 1 claims that this unit, 0, has a link to 3 at cost 1. Links out of
    /// this unit in a copy are not taken, so 3 has no entry. The copy's
    /// distance of 3 is finite nevertheless, so links out of 3 are taken and
    /// lead nowhere.
    #[test]
    fn links_out_of_this_unit_are_its_own_only() {
        let neighbours = Neighbours::from([neighbour(1, 1, &[(0, 1, 1), (3, 0, 1), (2, 3, 1)])]);
        let tree = recompute(0, 4, &neighbours);
        assert_eq!(entry(&tree, 1), link(0, 1));
        assert_eq!(entry(&tree, 3), None);
        assert_eq!(entry(&tree, 2), None);
    }

    /// The link 1 to 2 is known from copy 1 (cost 1) and from copy 2, which has
    /// an old cost for it (9). Unit 1 is nearest through itself, so its own
    /// word on its links counts.
    #[test]
    fn a_unit_is_believed_on_its_own_links() {
        let neighbours = Neighbours::from([
            neighbour(1, 1, &[(2, 1, 1), (3, 2, 1)]),
            neighbour(2, 8, &[(1, 2, 9), (3, 2, 4)]),
        ]);
        let tree = recompute(0, 4, &neighbours);
        assert_eq!(entry(&tree, 2), link(1, 1));
        // 2 is preferred through 1, at 2 below 8, so 2 to 3 costs 1 and not 4.
        assert_eq!(entry(&tree, 3), link(2, 1));
    }
}
