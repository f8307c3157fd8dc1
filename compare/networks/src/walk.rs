//! Walks the successor graph of every destination.
//!
//! This is demand 3 looked at from outside: it reads the tables by the index
//! rule of `docs/TABLES.md` and knows neither rules nor proofs. For each
//! destination, each unit has an edge to each of its successors. Along an edge
//! the feasible distance has to fall, no edges may close a circle, and no path
//! may have more edges than the count less one.

use second::network_tables::Tables;
use second::unit_table::{COUNT, FEASIBLE, SUCCESSORS, WORDS as UNIT};

/// What was walked so far.
#[derive(Clone, Copy, Debug, Default)]
pub struct Figures {
    /// Graphs, one for each destination at each step.
    pub graphs: u64,
    /// Edges, each unit's successors for each destination.
    pub edges: u64,
    /// The most successors of a unit.
    pub widest: u32,
    /// The most edges of a path.
    pub longest: u32,
    /// Graphs with a path of as many edges as the count less one.
    pub full_length: u64,
}

/// The graph of one destination.
struct Graph {
    count: usize,
    destination: usize,
    /// By unit, a bit for each successor.
    successors: Vec<u32>,
    /// By unit.
    feasible: Vec<u32>,
}

/// Where the depth-first search stands with a unit.
#[derive(Clone, Copy, PartialEq, Eq)]
enum Mark {
    Unseen,
    /// On the path that is being walked.
    Open,
    /// All paths from it are walked; the most edges of one.
    Done(u32),
}

/// Walks all graphs of the tables; answers what is wrong with one of them.
pub fn walk(tables: &Tables, figures: &mut Figures) -> Result<(), String> {
    let count = tables.number(COUNT) as usize;
    for destination in 0..count {
        let number = |first: usize| {
            let place = move |unit: usize| UNIT * unit + first + destination;
            (0..count).map(|unit| tables.number(place(unit))).collect()
        };
        let graph = Graph {
            count,
            destination,
            feasible: number(FEASIBLE),
            successors: number(SUCCESSORS),
        };
        let walked = graph.walk(figures);
        walked.map_err(|what| format!("destination {destination}: {what}"))?;
    }
    Ok(())
}

impl Graph {
    fn walk(&self, figures: &mut Figures) -> Result<(), String> {
        figures.graphs += 1;
        if self.successors[self.destination] != 0 {
            return Err(String::from("it has successors itself"));
        }
        for unit in 0..self.count {
            self.look_at(unit, figures)?;
        }
        let mut marks = vec![Mark::Unseen; self.count];
        let mut longest = 0;
        for unit in 0..self.count {
            longest = longest.max(self.edges_from(unit, &mut marks)?);
        }
        let most = self.count as u32 - 1;
        if longest > most {
            return Err(format!(
                "a path of {longest} hops among {} units",
                self.count
            ));
        }
        figures.longest = figures.longest.max(longest);
        figures.full_length += u64::from(longest == most);
        Ok(())
    }

    /// A unit's successors: units, and nearer ones.
    fn look_at(&self, unit: usize, figures: &mut Figures) -> Result<(), String> {
        let set = self.successors[unit];
        if set >> self.count != 0 {
            return Err(format!("unit {unit} has a successor that is no unit"));
        }
        figures.edges += u64::from(set.count_ones());
        figures.widest = figures.widest.max(set.count_ones());
        for next in self.successors_of(unit) {
            let (here, there) = (self.feasible[unit], self.feasible[next]);
            if there >= here {
                return Err(format!(
                    "unit {unit} at feasible distance {here} has successor {next} at {there}"
                ));
            }
        }
        Ok(())
    }

    fn successors_of(&self, unit: usize) -> impl Iterator<Item = usize> {
        let set = self.successors[unit];
        (0..self.count).filter(move |next| set >> next & 1 == 1)
    }

    /// The most edges of a path from a unit, which must not come back to one
    /// that is on the path.
    fn edges_from(&self, unit: usize, marks: &mut [Mark]) -> Result<u32, String> {
        match marks[unit] {
            Mark::Done(edges) => return Ok(edges),
            Mark::Open => return Err(format!("a circle through unit {unit}")),
            Mark::Unseen => marks[unit] = Mark::Open,
        }
        let mut most = 0;
        for next in self.successors_of(unit) {
            most = most.max(1 + self.edges_from(next, marks)?);
        }
        marks[unit] = Mark::Done(most);
        Ok(most)
    }
}

#[cfg(test)]
mod tests {
    use super::*;

    /// A graph for destination 0 with these successors and feasible distances.
    fn graph(successors: &[u32], feasible: &[u32]) -> Graph {
        Graph {
            count: successors.len(),
            destination: 0,
            successors: successors.to_vec(),
            feasible: feasible.to_vec(),
        }
    }

    fn verdict(successors: &[u32], feasible: &[u32]) -> Result<Figures, String> {
        let mut figures = Figures::default();
        graph(successors, feasible).walk(&mut figures)?;
        Ok(figures)
    }

    #[test]
    fn a_chain_has_the_longest_path() {
        let figures = verdict(&[0, 1, 2, 4], &[0, 1, 2, u32::MAX]).unwrap();
        assert_eq!(figures.longest, 3);
        assert_eq!(figures.edges, 3);
        assert_eq!(figures.full_length, 1);
    }

    #[test]
    fn two_ways_are_no_circle() {
        let figures = verdict(&[0, 1, 1, 0b110], &[0, 1, 1, 2]).unwrap();
        assert_eq!((figures.longest, figures.widest), (2, 2));
        assert_eq!(figures.full_length, 0);
    }

    #[test]
    fn what_is_wrong() {
        let equal = verdict(&[0, 4, 1], &[0, 2, 2]).unwrap_err();
        assert_eq!(equal, "unit 1 at feasible distance 2 has successor 2 at 2");
        assert!(verdict(&[0, 8, 0], &[0, 1, 2])
            .unwrap_err()
            .contains("no unit"));
        assert!(verdict(&[2, 0, 0], &[5, 1, 2])
            .unwrap_err()
            .contains("itself"));
    }

    /// The search finds a circle though distances were not looked at.
    #[test]
    fn a_circle_is_found_by_the_search_alone() {
        let circle = graph(&[0, 4, 8, 2], &[0; 4]);
        let mut marks = [Mark::Unseen; 4];
        assert_eq!(circle.edges_from(0, &mut marks), Ok(0));
        let found = circle.edges_from(1, &mut marks);
        assert_eq!(found, Err(String::from("a circle through unit 1")));
        let itself = graph(&[0, 2], &[0; 2]);
        assert!(itself.edges_from(1, &mut [Mark::Unseen; 2]).is_err());
    }
}
