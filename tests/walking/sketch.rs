//! A molecule under construction: rings, chains and ears put on step by step, within 64 atoms and 64 bonds.

use crate::random::Random;
use crate::table::{Table, MOST_ATOMS, MOST_BONDS};

#[derive(Clone, Default)]
pub struct Sketch {
    pub atoms: usize,
    pub bonds: Vec<(u8, u8)>,
}

impl Sketch {
    pub fn of_atoms(atoms: usize) -> Sketch {
        Sketch {
            atoms,
            bonds: Vec::new(),
        }
    }

    /// One ring.
    pub fn ring(size: usize) -> Sketch {
        let mut sketch = Sketch::of_atoms(1);
        sketch.ear(0, 0, size - 1);
        sketch
    }

    /// One chain.
    pub fn line(atoms: usize) -> Sketch {
        let mut sketch = Sketch::of_atoms(1);
        sketch.chain(0, atoms - 1);
        sketch
    }

    pub fn table(&self) -> Table {
        Table::new(self.atoms as u64, &self.bonds)
    }

    pub fn bonded(&self, a: usize, b: usize) -> bool {
        self.bonds.iter().any(|&(x, y)| {
            (usize::from(x), usize::from(y)) == (a, b) || (usize::from(y), usize::from(x)) == (a, b)
        })
    }

    fn fits(&self, atoms: usize, bonds: usize) -> bool {
        self.atoms + atoms <= MOST_ATOMS as usize && self.bonds.len() + bonds <= MOST_BONDS
    }

    /// Bonds two atoms, if they are two, not yet bonded, and a bond more is allowed.
    pub fn bond(&mut self, a: usize, b: usize) -> bool {
        let wanted = a != b && !self.bonded(a, b) && self.fits(0, 1);
        if wanted {
            self.bonds.push((a as u8, b as u8));
        }
        wanted
    }

    /// Puts a path of new atoms between two atoms: a ring more, fused where the two are bonded, bridged where they are
    /// not, and spiro where they are one.
    pub fn ear(&mut self, a: usize, b: usize, inner: usize) -> bool {
        let closes = if a == b {
            inner >= 2
        } else {
            inner >= 1 || !self.bonded(a, b)
        };
        if !closes || !self.fits(inner, inner + 1) {
            return false;
        }
        let end = self.hang(a, inner);
        self.bond(end, b)
    }

    /// Hangs a chain of new atoms on an atom.
    pub fn chain(&mut self, a: usize, length: usize) -> bool {
        let wanted = self.fits(length, length);
        if wanted {
            self.hang(a, length);
        }
        wanted
    }

    fn hang(&mut self, a: usize, length: usize) -> usize {
        let mut at = a;
        for _ in 0..length {
            self.bonds.push((at as u8, self.atoms as u8));
            at = self.atoms;
            self.atoms += 1;
        }
        at
    }

    /// Puts another sketch beside this one, as fragments of its own; gives the number of its first atom.
    pub fn beside(&mut self, other: &Sketch) -> Option<usize> {
        if !self.fits(other.atoms, other.bonds.len()) {
            return None;
        }
        let first = self.atoms;
        self.bonds.extend(
            other
                .bonds
                .iter()
                .map(|&(a, b)| (a + first as u8, b + first as u8)),
        );
        self.atoms += other.atoms;
        Some(first)
    }

    /// Puts an atom into a bond.
    pub fn split(&mut self, bond: usize) {
        if self.fits(1, 1) {
            let (a, b) = self.bonds[bond];
            self.bonds[bond] = (a, self.atoms as u8);
            self.bonds.push((self.atoms as u8, b));
            self.atoms += 1;
        }
    }

    /// One step of growth, of a random kind at a random place.
    pub fn grow(&mut self, random: &mut Random) {
        let a = random.below(self.atoms);
        let b = random.below(self.atoms);
        let size = if random.once_in(8) {
            random.within(9, 20)
        } else {
            random.within(3, 8)
        };
        match random.below(8) {
            0 | 1 if !self.bonds.is_empty() => {
                let (x, y) = random.pick(&self.bonds);
                self.ear(usize::from(x), usize::from(y), size - 2)
            }
            2 => self.ear(a, a, size - 1),
            3 => self.ear(a, b, random.below(4)),
            4 | 5 => self.chain(a, random.within(1, 5)),
            6 => {
                self.chain(a, random.within(1, 3))
                    && self.ear(self.atoms - 1, self.atoms - 1, size - 1)
            }
            _ => self
                .beside(&if random.once_in(2) {
                    Sketch::ring(size)
                } else {
                    Sketch::line(random.within(1, 6))
                })
                .is_some(),
        };
    }

    /// Takes some bonds away, splits some, hangs chains on, so that regular frames become irregular ones.
    pub fn disturb(&mut self, random: &mut Random) {
        for _ in 0..random.pick(&[0, 0, 1, 1, 2, 3]) {
            if !self.bonds.is_empty() {
                self.bonds.remove(random.below(self.bonds.len()));
            }
        }
        for _ in 0..random.pick(&[0, 0, 1, 3, 6]) {
            if !self.bonds.is_empty() {
                self.split(random.below(self.bonds.len()));
            }
        }
        for _ in 0..random.pick(&[0, 0, 1, 2, 4]) {
            self.chain(random.below(self.atoms), random.within(1, 4));
        }
    }
}
