//! The search by walking: closure bonds, basis rings, assemblies and all rings of an accepted table.
//! Nothing here sums sets. A bond set is one word, bit k for bond k, and comes from the bonds that a walk went over.

use crate::table::Table;

/// The step from an atom over a bond to the atom at its other end.
#[derive(Clone, Copy)]
struct Step {
    to: usize,
    bond: usize,
}

pub struct Graph {
    pub atoms: usize,
    pub ends: Vec<(usize, usize)>,
    steps: Vec<Vec<Step>>,
}

impl Graph {
    /// The graph of an accepted table.
    pub fn of(table: &Table) -> Graph {
        let atoms = table.atoms as usize;
        let ends: Vec<(usize, usize)> = table
            .bonds()
            .iter()
            .map(|&(a, b)| (usize::from(a), usize::from(b)))
            .collect();
        let mut steps = vec![Vec::new(); atoms];
        for (bond, &(a, b)) in ends.iter().enumerate() {
            steps[a].push(Step { to: b, bond });
            steps[b].push(Step { to: a, bond });
        }
        Graph { atoms, ends, steps }
    }

    /// The bonds of a shortest path between two atoms over usable bonds, found breadth first.
    fn path(&self, from: usize, to: usize, usable: &dyn Fn(usize) -> bool) -> Option<u64> {
        let mut bonds_to: Vec<Option<u64>> = vec![None; self.atoms];
        bonds_to[from] = Some(0);
        let mut reached = vec![from];
        let mut next = 0;
        while next < reached.len() {
            let at = reached[next];
            next += 1;
            let so_far = bonds_to[at].unwrap_or(0);
            for step in self.steps[at].iter().filter(|step| usable(step.bond)) {
                if bonds_to[step.to].is_none() {
                    bonds_to[step.to] = Some(so_far | 1 << step.bond);
                    reached.push(step.to);
                }
            }
        }
        bonds_to[to]
    }

    /// How many fragments there are: one for each atom from which a flood starts, since none before has reached it.
    pub fn fragments(&self) -> usize {
        let mut reached = vec![false; self.atoms];
        let mut floods = 0;
        for start in 0..self.atoms {
            floods += usize::from(!reached[start]);
            let mut edge = vec![start];
            while let Some(at) = edge.pop() {
                if !std::mem::replace(&mut reached[at], true) {
                    edge.extend(self.steps[at].iter().map(|step| step.to));
                }
            }
        }
        floods
    }

    /// How many atoms no bond meets.
    pub fn lone_atoms(&self) -> usize {
        self.steps.iter().filter(|steps| steps.is_empty()).count()
    }

    /// The bonds whose two atoms are already joined by a path of lower-numbered bonds.
    pub fn closure_bonds(&self) -> Vec<usize> {
        (0..self.ends.len())
            .filter(|&bond| {
                let (a, b) = self.ends[bond];
                self.path(a, b, &|lower| lower < bond).is_some()
            })
            .collect()
    }

    /// Each closure bond with the one path of forest bonds between its ends.
    pub fn basis_rings(&self) -> Vec<u64> {
        let closures = self.closure_bonds();
        closures
            .iter()
            .map(|&bond| {
                let (a, b) = self.ends[bond];
                let path = self.path(a, b, &|other| !closures.contains(&other));
                path.expect("the forest joins the ends of a closure bond") | 1 << bond
            })
            .collect()
    }

    /// All rings, by size and then by word.
    pub fn all_rings(&self) -> Vec<u64> {
        let neighbours: Vec<u64> = self
            .steps
            .iter()
            .map(|steps| steps.iter().fold(0, |set, step| set | 1u64 << step.to))
            .collect();
        let mut rings = Vec::new();
        for start in 0..self.atoms {
            let mut walk = Walk {
                graph: self,
                neighbours: &neighbours,
                start,
                second: start,
                rings: &mut rings,
            };
            walk.go_on(start, 1 << start, 0);
        }
        in_order(&mut rings);
        rings
    }
}

/// Sorts by size, then by the bond set read as a number, both rising.
pub fn in_order(rings: &mut [u64]) {
    rings.sort_unstable_by_key(|&ring| (ring.count_ones(), ring));
}

/// A walk over atoms from its start, which is the lowest atom of every ring that it closes. It never meets an atom twice.
struct Walk<'a> {
    graph: &'a Graph,
    neighbours: &'a [u64],
    start: usize,
    second: usize,
    rings: &'a mut Vec<u64>,
}

impl Walk<'_> {
    /// Goes on from an atom in every way that may still come home. Each ring is walked in both directions and noted in
    /// the one whose second atom is lower than its last, so it is noted once.
    fn go_on(&mut self, at: usize, met: u64, bonds: u64) {
        for step in &self.graph.steps[at] {
            if step.to == self.start {
                if self.second < at && bonds.count_ones() >= 2 {
                    self.rings.push(bonds | 1 << step.bond);
                }
            } else if step.to > self.start && met >> step.to & 1 == 0 && self.way_home(step.to, met)
            {
                if at == self.start {
                    self.second = step.to;
                }
                self.go_on(step.to, met | 1 << step.to, bonds | 1 << step.bond);
            }
        }
    }

    /// The start can be reached from an atom over atoms above it that the walk has not met.
    fn way_home(&self, from: usize, met: u64) -> bool {
        let open = !met & (!1 << self.start);
        let mut reached = 1u64 << from;
        let mut edge = reached;
        while edge != 0 {
            let atom = edge.trailing_zeros() as usize;
            edge &= edge - 1;
            if self.neighbours[atom] >> self.start & 1 == 1 {
                return true;
            }
            let new = self.neighbours[atom] & open & !reached;
            reached |= new;
            edge |= new;
        }
        false
    }
}

/// The assembly of each basis ring, numbered from 0 by their first basis ring. Each ring starts alone; rings that share
/// a bond take the lower of their two numbers, until a pass over all pairs changes nothing.
pub fn assemblies(basis: &[u64]) -> Vec<u8> {
    let mut group: Vec<usize> = (0..basis.len()).collect();
    let mut changed = true;
    while changed {
        changed = false;
        for i in 0..basis.len() {
            for j in 0..basis.len() {
                if basis[i] & basis[j] != 0 && group[i] > group[j] {
                    group[i] = group[j];
                    changed = true;
                }
            }
        }
    }
    let mut leaders = group.clone();
    leaders.sort_unstable();
    leaders.dedup();
    group
        .iter()
        .map(|leader| leaders.iter().position(|x| x == leader).unwrap_or(0) as u8)
        .collect()
}
