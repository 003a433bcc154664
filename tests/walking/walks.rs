//! The walks that are asked for of each table: round every ring, and round sets that are no rings.

use crate::answers::Found;
use crate::asked::Asked;
use crate::random::Random;
use crate::round::members;
use crate::table::Table;
use crate::walk::Graph;

/// Every set of bonds is asked for where the table has no more atoms than these.
const FEW_ATOMS: usize = 5;
/// How many sums of basis rings are made where the table is tangled, and its rings are not listed.
const SUMS: usize = 60;
/// How many rings, or pairs of them, are picked to make each kind of other sets.
const PICKED: usize = 2;
/// How many pairs of rings are tried to find two with an atom and no bond in common, and two with neither.
const PAIRS: usize = 60;

/// The walks asked for of a table.
pub fn walks(table: &Table, found: &Found, random: &mut Random) -> Vec<Asked> {
    let mut walks = Walks {
        random,
        asked: Vec::new(),
    };
    if found.refusal != 0 {
        walks.of_refused();
        return walks.asked;
    }
    let graph = Graph::of(table);
    let rings = walks.rings(&graph, found);
    for &ring in &rings {
        walks.with_enough(ring);
    }
    if graph.atoms <= FEW_ATOMS {
        walks.every_set(&graph);
    }
    walks.no_rings(&graph);
    if !rings.is_empty() {
        walks.about_rings(&graph, &rings);
        walks.pairs(&rings);
        walks.apart(&graph, &rings);
    }
    walks.asked
}

struct Walks<'a> {
    random: &'a mut Random,
    asked: Vec<Asked>,
}

impl Walks<'_> {
    fn ask(&mut self, set: u64, for_atoms: usize, for_bonds: usize) {
        self.asked.push(Asked {
            set,
            for_atoms: for_atoms as u8,
            for_bonds: for_bonds as u8,
        });
    }

    /// As much room as the set has bonds, or more.
    fn with_enough(&mut self, set: u64) {
        let size = set.count_ones() as usize;
        let (atoms, bonds) = (
            self.random.pick(&[0, 0, 1, 3]),
            self.random.pick(&[0, 0, 1, 2]),
        );
        self.ask(set, size + atoms, size + bonds);
    }

    /// Just enough room, one too many, one too few or none, for each list.
    fn with_any(&mut self, set: u64) {
        let size = set.count_ones() as usize;
        let rooms = [size, size, size + 1, size.saturating_sub(1), 0];
        let (atoms, bonds) = (self.random.pick(&rooms), self.random.pick(&rooms));
        self.ask(set, atoms, bonds);
    }

    /// Too little room on either side and on both.
    fn with_too_little(&mut self, ring: u64) {
        let size = ring.count_ones() as usize;
        for (atoms, bonds) in [
            (size - 1, size),
            (size, size - 1),
            (size - 1, size - 1),
            (0, size + 1),
            (size + 1, 0),
            (0, 0),
        ] {
            self.ask(ring, atoms, bonds);
        }
    }

    /// Sets and rooms of any kind, for a table that is refused.
    fn of_refused(&mut self) {
        for set in [0, 1, 7, u64::MAX, self.random.word()] {
            let (atoms, bonds) = (self.random.below(5), self.random.below(5));
            self.ask(set, atoms, bonds);
        }
    }

    /// All rings or, of a tangled table, the basis rings and such sums of a few of them as are rings.
    fn rings(&mut self, graph: &Graph, found: &Found) -> Vec<u64> {
        if !found.tangled {
            return found.all.clone();
        }
        let mut rings = found.basis.clone();
        for _ in 0..SUMS {
            let several = self.random.within(2, 5);
            let sum = (0..several).fold(0, |sum, _| sum ^ self.random.pick(&found.basis));
            if graph.is_ring(sum) {
                rings.push(sum);
            }
        }
        rings
    }

    fn every_set(&mut self, graph: &Graph) {
        for set in 0..1 << graph.ends.len() {
            self.with_any(set);
        }
    }

    /// The empty set, all bonds, single bonds, sets at random; bonds beyond the last and nothing else.
    fn no_rings(&mut self, graph: &Graph) {
        let all = bonds_below(graph.ends.len());
        let sparse = self.random.word() & self.random.word() & self.random.word();
        let any = self.random.word();
        for set in [0, all, u64::MAX, !all, any, any & all, sparse & all] {
            self.with_any(set);
        }
        if all != 0 {
            for _ in 0..PICKED {
                let bond = self.random.below(graph.ends.len());
                self.with_any(1 << bond);
            }
        }
    }

    /// Some rings with too little room, less a bond or half their bonds, with a bond more, and with bonds beyond the last.
    fn about_rings(&mut self, graph: &Graph, rings: &[u64]) {
        let bonds = graph.ends.len();
        for _ in 0..PICKED {
            let ring = self.random.pick(rings);
            self.with_too_little(ring);
            let on_it: Vec<usize> = members(ring).collect();
            let less = ring & !(1 << self.random.pick(&on_it));
            let half = ring & self.random.word();
            let more = ring | 1 << self.random.below(64);
            for set in [less, half, more] {
                self.with_any(set);
            }
            if bonds < 64 {
                let beyond = self.random.within(bonds, 63);
                for set in [ring | 1 << beyond, ring | 1 << bonds, ring | 1 << 63] {
                    self.with_enough(set);
                }
            }
        }
    }

    /// Sums of two rings, and two rings together.
    fn pairs(&mut self, rings: &[u64]) {
        for _ in 0..PICKED {
            let (one, other) = (self.random.pick(rings), self.random.pick(rings));
            self.with_enough(one ^ other);
            self.with_any(one | other);
        }
    }

    /// Two rings with one atom and no bond in common, and two with no atom in common, where they are found.
    fn apart(&mut self, graph: &Graph, rings: &[u64]) {
        let mut wanted = [PICKED, PICKED];
        for _ in 0..PAIRS {
            let (one, other) = (self.random.pick(rings), self.random.pick(rings));
            let shared = (graph.atoms_of(one) & graph.atoms_of(other)).count_ones() as usize;
            if shared <= 1 && wanted[shared] > 0 {
                wanted[shared] -= 1;
                self.with_enough(one | other);
            }
        }
    }
}

/// The bonds below one.
fn bonds_below(bond: usize) -> u64 {
    (0..bond).fold(0, |set, below| set | 1 << below)
}
