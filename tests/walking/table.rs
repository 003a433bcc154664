//! The connection table and its refusals, those of docs/REFERENCE.md.

use crate::random::Random;

/// The limits of docs/REFERENCE.md.
pub const MOST_ATOMS: u64 = 64;
pub const MOST_BONDS: usize = 64;

#[derive(Clone, PartialEq, Debug)]
pub struct Table {
    pub atoms: u64,
    pub bytes: Vec<u8>,
}

impl Table {
    pub fn new(atoms: u64, bonds: &[(u8, u8)]) -> Table {
        Table {
            atoms,
            bytes: bonds.iter().flat_map(|&(a, b)| [a, b]).collect(),
        }
    }

    /// The whole bonds, in the order given; a last odd byte is no bond.
    pub fn bonds(&self) -> Vec<(u8, u8)> {
        self.bytes
            .chunks_exact(2)
            .map(|pair| (pair[0], pair[1]))
            .collect()
    }

    /// The number of the first refusal from 1 to 6 that the table gives, or 0. Each is tried over the whole table.
    pub fn refusal(&self) -> u8 {
        let bonds = self.bonds();
        let beyond = |a: u8| u64::from(a) >= self.atoms;
        let tests = [
            self.bytes.len() % 2 == 1,
            self.atoms == 0 || self.atoms > MOST_ATOMS,
            bonds.len() > MOST_BONDS,
            bonds.iter().any(|&(a, b)| beyond(a) || beyond(b)),
            bonds.iter().any(|&(a, b)| a == b),
            some_pair_twice(&bonds),
        ];
        tests
            .iter()
            .position(|&given| given)
            .map_or(0, |place| place as u8 + 1)
    }

    /// The table as a person reads it: `0-1 1-2`, the first eighty bonds at most.
    pub fn shown(&self) -> String {
        let bonds = self.bonds();
        let mut words: Vec<String> = bonds
            .iter()
            .take(80)
            .map(|(a, b)| format!("{a}-{b}"))
            .collect();
        if bonds.len() > 80 {
            words.push(format!("and {} more", bonds.len() - 80));
        }
        if self.bytes.len() % 2 == 1 {
            words.push(format!(
                "and the odd byte {}",
                self.bytes[self.bytes.len() - 1]
            ));
        }
        words.join(" ")
    }

    /// The same molecule with its atoms, its bonds and the ends of its bonds in another order.
    /// Ends that name no atom stay, as does a last odd byte, so that the refusal stays too.
    pub fn renumbered(&self, random: &mut Random) -> Table {
        let mut new_number: Vec<u8> = (0..self.atoms.min(256)).map(|a| a as u8).collect();
        random.shuffle(&mut new_number);
        let renamed = |a: u8| new_number.get(usize::from(a)).copied().unwrap_or(a);
        let mut bonds: Vec<(u8, u8)> = self
            .bonds()
            .iter()
            .map(|&(a, b)| (renamed(a), renamed(b)))
            .collect();
        random.shuffle(&mut bonds);
        turn_some(&mut bonds, random);
        let mut twin = Table::new(self.atoms, &bonds);
        twin.bytes.extend(self.bytes.chunks_exact(2).remainder());
        twin
    }
}

/// Turns about every second bond the other way round.
pub fn turn_some(bonds: &mut [(u8, u8)], random: &mut Random) {
    for bond in bonds {
        if random.once_in(2) {
            *bond = (bond.1, bond.0);
        }
    }
}

/// Two bonds join the same pair of atoms, either way round. Equal pairs are neighbours once sorted.
fn some_pair_twice(bonds: &[(u8, u8)]) -> bool {
    let mut pairs: Vec<(u8, u8)> = bonds.iter().map(|&(a, b)| (a.min(b), a.max(b))).collect();
    pairs.sort_unstable();
    pairs.windows(2).any(|two| two[0] == two[1])
}
