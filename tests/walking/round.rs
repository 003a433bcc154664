//! Rings in walking order, without a walk: a ring is told by the bonds at each atom and by what hangs together, its order by
//! distances.

use crate::walk::Graph;

/// A ring in order, from the lower atom of its lowest bond over that bond: each atom stands where the bond stands that leaves it.
#[derive(Clone, Default, PartialEq, Debug)]
pub struct Round {
    pub atoms: Vec<u8>,
    pub bonds: Vec<u8>,
}

/// The bonds of a set, rising.
pub fn members(mut set: u64) -> impl Iterator<Item = usize> {
    std::iter::from_fn(move || {
        let lowest = (set != 0).then(|| set.trailing_zeros() as usize);
        set &= set.wrapping_sub(1);
        lowest
    })
}

impl Graph {
    /// No bond of the set is beyond the last.
    pub fn within(&self, set: u64) -> bool {
        members(set).all(|bond| bond < self.ends.len())
    }

    /// How many bonds of a set each atom has.
    pub fn bonds_at(&self, set: u64) -> Vec<usize> {
        let mut at = vec![0; self.atoms];
        for bond in members(set) {
            at[self.ends[bond].0] += 1;
            at[self.ends[bond].1] += 1;
        }
        at
    }

    /// The atoms of a set of bonds, as a set of atoms.
    pub fn atoms_of(&self, set: u64) -> u64 {
        members(set).fold(0, |atoms, bond| {
            atoms | 1 << self.ends[bond].0 | 1 << self.ends[bond].1
        })
    }

    /// The part of a set that hangs together with its lowest bond.
    pub fn part(&self, set: u64) -> u64 {
        let mut part = set & set.wrapping_neg();
        loop {
            let atoms = self.atoms_of(part);
            let touched = |&bond: &usize| self.atoms_of(1 << bond) & atoms != 0;
            let more = members(set)
                .filter(touched)
                .fold(0, |s, bond| s | 1 << bond);
            if more == part {
                return part;
            }
            part = more;
        }
    }

    /// Every atom has two bonds of the set or none of it, and the set hangs together and is not empty.
    pub fn is_ring(&self, set: u64) -> bool {
        let two_or_none = || self.bonds_at(set).iter().all(|&n| n == 0 || n == 2);
        set != 0 && self.within(set) && two_or_none() && self.part(set) == set
    }

    /// How many bonds of a path lie between one of its ends and each of its atoms.
    fn distances(&self, end: usize, path: u64) -> Vec<Option<usize>> {
        let mut distances = vec![None; self.atoms];
        distances[end] = Some(0);
        let mut changed = true;
        while changed {
            changed = false;
            for (a, b) in members(path).map(|bond| self.ends[bond]) {
                for (near, far) in [(a, b), (b, a)] {
                    if let (Some(so_far), None) = (distances[near], distances[far]) {
                        distances[far] = Some(so_far + 1);
                        changed = true;
                    }
                }
            }
        }
        distances
    }

    /// The ring in order; none where the set is no ring. Without its lowest bond a ring is a path between that bond's atoms, and the
    /// atoms follow the start by their distance from the path's other end.
    pub fn round(&self, set: u64) -> Option<Round> {
        if !self.is_ring(set) {
            return None;
        }
        let (a, b) = self.ends[set.trailing_zeros() as usize];
        let distances = self.distances(a.max(b), set & (set - 1));
        let mut atoms: Vec<usize> = (0..self.atoms)
            .filter(|&c| distances[c].is_some())
            .collect();
        atoms.sort_by_key(|&c| (c != a.min(b), distances[c]));
        let joins = |c: usize, d: usize| {
            let bond = members(set).find(|&bond| self.atoms_of(1 << bond) == 1 << c | 1 << d);
            bond.expect("neighbours in a ring are bonded") as u8
        };
        let bonds = (0..atoms.len()).map(|i| joins(atoms[i], atoms[(i + 1) % atoms.len()]));
        Some(Round {
            bonds: bonds.collect(),
            atoms: atoms.iter().map(|&atom| atom as u8).collect(),
        })
    }
}
