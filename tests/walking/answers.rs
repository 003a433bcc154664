//! What the library answers for a table: every list, the label, the sidecar, and what is left in a lent list.

use crate::table::Table;
use crate::walk::{assemblies, Graph};

pub const TANGLED: u8 = 7;
pub const ROOM: u8 = 8;

/// The most basis rings that an assembly may have before it is tangled.
const MOST_IN_ASSEMBLY: usize = 10;

/// Everything that the library could write for a table. Lists that a refusal keeps back are empty.
#[derive(Clone, Default)]
pub struct Found {
    pub refusal: u8,
    pub tangled: bool,
    pub basis: Vec<u64>,
    pub assemblies: Vec<u8>,
    pub all: Vec<u64>,
    pub reduced: Vec<u64>,
    pub smallest: Vec<u64>,
    pub label: Vec<u8>,
    pub sidecar: Vec<u8>,
}

impl Found {
    pub fn of(table: &Table) -> Found {
        let refusal = table.refusal();
        if refusal != 0 {
            return Found {
                refusal,
                ..Found::default()
            };
        }
        let graph = Graph::of(table);
        let basis = graph.basis_rings();
        let assemblies = assemblies(&basis);
        let reduced = reduced_basis(&basis, &assemblies);
        let tangled = is_tangled(&basis, &assemblies);
        let mut found = Found {
            tangled,
            basis,
            assemblies,
            reduced,
            ..Found::default()
        };
        if !tangled {
            found.all = graph.all_rings();
            found.smallest = smallest_basis(&found.all);
        }
        found.write_fields(table);
        found
    }

    /// Writes the label and the sidecar anew from the lists.
    pub fn write_fields(&mut self, table: &Table) {
        self.label = if self.tangled {
            Vec::new()
        } else {
            label(table, self)
        };
        self.sidecar = field(
            0x20,
            self.reduced
                .iter()
                .flat_map(|set| set.to_be_bytes())
                .collect(),
        );
    }

    /// The refusal of the entries that need all rings.
    pub fn refusal_of_rings(&self) -> u8 {
        match self.refusal {
            0 if self.tangled => TANGLED,
            given => given,
        }
    }
}

/// Some assembly has more basis rings than it may have.
pub fn is_tangled(basis: &[u64], assemblies: &[u8]) -> bool {
    by_assembly(basis, assemblies)
        .iter()
        .any(|rings| rings.len() > MOST_IN_ASSEMBLY)
}

/// The basis rings of each assembly, both in order.
pub fn by_assembly(basis: &[u64], assemblies: &[u8]) -> Vec<Vec<u64>> {
    let how_many = assemblies
        .iter()
        .max()
        .map_or(0, |&last| usize::from(last) + 1);
    let mut rings = vec![Vec::new(); how_many];
    for (&ring, &assembly) in basis.iter().zip(assemblies) {
        rings[usize::from(assembly)].push(ring);
    }
    rings
}

/// Of the rings in order, each that is not a sum of rings already taken.
pub fn smallest_basis(rings: &[u64]) -> Vec<u64> {
    let mut taken = Span::default();
    rings
        .iter()
        .copied()
        .filter(|&ring| taken.take(ring))
        .collect()
}

/// The sums of the sets taken so far, kept as rows whose lowest bonds are each in no other row.
#[derive(Default)]
struct Span {
    rows: Vec<u64>,
}

impl Span {
    /// Takes a set if it is no sum of those taken.
    fn take(&mut self, set: u64) -> bool {
        let lowest = |s: u64| s & s.wrapping_neg();
        let left = self.rows.iter().fold(set, |left, row| {
            if left & lowest(*row) != 0 {
                left ^ row
            } else {
                left
            }
        });
        if left == 0 {
            return false;
        }
        for row in self.rows.iter_mut().filter(|row| **row & lowest(left) != 0) {
            *row ^= left;
        }
        self.rows.push(left);
        true
    }
}

/// Per assembly, pairwise exchange until a sweep changes nothing.
pub fn reduced_basis(basis: &[u64], assemblies: &[u8]) -> Vec<u64> {
    let mut reduced = Vec::new();
    for mut sets in by_assembly(basis, assemblies) {
        while sweep(&mut sets) {}
        reduced.extend(sets);
    }
    reduced
}

/// One sweep over the pairs (j, i), j before i, j outermost; true if it changed something.
fn sweep(sets: &mut [u64]) -> bool {
    let mut changed = false;
    for j in 0..sets.len() {
        for i in j + 1..sets.len() {
            let mut x = sets[j] ^ sets[i];
            if x.count_ones() < sets[i].count_ones() {
                std::mem::swap(&mut x, &mut sets[i]);
                changed = true;
            }
            if x.count_ones() < sets[j].count_ones() {
                sets[j] = x;
                changed = true;
            }
        }
    }
    changed
}

/// A tagged field: tag, length in two bytes, content.
pub fn field(tag: u8, content: Vec<u8>) -> Vec<u8> {
    let mut bytes = vec![tag];
    bytes.extend((content.len() as u16).to_be_bytes());
    bytes.extend(content);
    bytes
}

/// How many sets have each size, for the sizes that occur, rising.
pub fn sizes(sets: &[u64]) -> Vec<(u8, usize)> {
    (0..=64)
        .map(|size| {
            (
                size as u8,
                sets.iter().filter(|set| set.count_ones() == size).count(),
            )
        })
        .filter(|&(_, n)| n > 0)
        .collect()
}

/// Bonds - atoms + fragments, or 0 where so few fragments are given that it is negative.
pub fn frerejacque(table: &Table, fragments: usize) -> u8 {
    (table.bonds().len() + fragments).saturating_sub(table.atoms as usize) as u8
}

fn label(table: &Table, found: &Found) -> Vec<u8> {
    let all = sizes(&found.all)
        .iter()
        .flat_map(|&(size, n)| [size, (n >> 8) as u8, n as u8])
        .collect();
    let smallest = sizes(&found.smallest)
        .iter()
        .flat_map(|&(size, n)| [size, n as u8])
        .collect();
    let mut pairs: Vec<(u8, u8)> = by_assembly(&found.basis, &found.assemblies)
        .iter()
        .map(|rings| {
            (
                rings.len() as u8,
                rings
                    .iter()
                    .fold(0, |union, ring| union | ring)
                    .count_ones() as u8,
            )
        })
        .collect();
    pairs.sort_unstable();
    let assemblies = pairs
        .iter()
        .flat_map(|&(rings, bonds)| [rings, bonds])
        .collect();
    [
        field(1, vec![frerejacque(table, Graph::of(table).fragments())]),
        field(2, all),
        field(3, smallest),
        field(4, assemblies),
    ]
    .concat()
}

/// The number and the count of an answer, and the lent list at exit.
pub struct Answer<T> {
    pub number: u8,
    pub count: usize,
    pub lent: Vec<T>,
}

/// The answer for a refusal number, what would be written, and the list as lent.
pub fn outcome<T: Copy>(refusal: u8, wanted: &[T], mut lent: Vec<T>) -> Answer<T> {
    let number = match refusal {
        0 if wanted.len() > lent.len() => ROOM,
        given => given,
    };
    if number != 0 {
        return Answer {
            number,
            count: 0,
            lent,
        };
    }
    lent[..wanted.len()].copy_from_slice(wanted);
    Answer {
        number,
        count: wanted.len(),
        lent,
    }
}

/// The part of the first list from its first word of that size, as far as the size stays; else of the second list;
/// else the empty part at the start of the first.
pub fn lookup<'a>(first: &'a [u64], second: &'a [u64], size: u32) -> &'a [u64] {
    for list in [first, second] {
        if let Some(from) = list.iter().position(|word| word.count_ones() == size) {
            let length = list[from..]
                .iter()
                .take_while(|word| word.count_ones() == size)
                .count();
            return &list[from..from + length];
        }
    }
    &first[..0]
}
