//! Tables that are refused: every set of faults together, and single ones at the edges of the limits.

use crate::frames::{complete, grown, scattered};
use crate::random::Random;
use crate::sketch::Sketch;
use crate::table::{turn_some, Table};

/// How many tables of each set of faults are made, and how many where the set has one or two.
const OF_EACH: usize = 8;
const OF_FEW: usize = 40;

/// A table with faults, and the refusal that it must give: the lowest of its faults.
pub struct Damaged {
    pub table: Table,
    pub refusal: u8,
}

/// Every set of the faults 1 to 6, on sound tables and on a tangled one.
pub fn all_sets_of_faults(random: &mut Random) -> Vec<Damaged> {
    let mut made = Vec::new();
    for choice in 1u8..64 {
        let faults: Vec<u8> = (1..=6)
            .filter(|fault| choice >> (fault - 1) & 1 == 1)
            .collect();
        for turn in 0..if faults.len() <= 2 { OF_FEW } else { OF_EACH } {
            let base = if turn == 0 {
                complete(8)
            } else {
                sound(random)
            };
            made.push(Damaged {
                table: damage(&base, &faults, random),
                refusal: faults[0],
            });
        }
    }
    made
}

/// A table without faults that leaves room for three bonds more and has at least four atoms and one bond.
fn sound(random: &mut Random) -> Sketch {
    loop {
        let sketch = if random.once_in(2) {
            grown(random)
        } else {
            scattered(random, 64)
        };
        if sketch.atoms >= 4 && (1..=61).contains(&sketch.bonds.len()) {
            return sketch;
        }
    }
}

/// Puts faults into a sound table, each at a random place of the bond list.
fn damage(base: &Sketch, faults: &[u8], random: &mut Random) -> Table {
    let mut atoms = base.atoms;
    let mut bonds = base.bonds.clone();
    if faults.contains(&3) {
        atoms = 64;
        add_bonds(&mut bonds, random);
    }
    let place = |bonds: &Vec<(u8, u8)>, random: &mut Random| random.below(bonds.len() + 1);
    if faults.contains(&6) {
        let twice = random.pick(&bonds);
        let at = place(&bonds, random);
        bonds.insert(
            at,
            if random.once_in(2) {
                twice
            } else {
                (twice.1, twice.0)
            },
        );
    }
    if faults.contains(&5) {
        let any = random.below(atoms);
        let a = random.pick(&[0, atoms - 1, any]) as u8;
        let at = place(&bonds, random);
        bonds.insert(at, (a, a));
    }
    if faults.contains(&4) {
        let any = random.within(atoms, 255);
        let beyond = random.pick(&[atoms, 255, any]) as u8;
        let at = place(&bonds, random);
        let other = random.below(atoms) as u8;
        bonds.insert(at, random.pick(&[(beyond, other), (other, beyond)]));
    }
    if faults.contains(&2) {
        atoms = random.pick(&[0, 65, 66, 128, 200, 255, (1 << 32) + 64, usize::MAX]);
    }
    turn_some(&mut bonds, random);
    let mut table = Table::new(atoms as u64, &bonds);
    if faults.contains(&1) {
        table.bytes.push(random.byte());
    }
    table
}

/// Adds bonds between 64 atoms, none twice, until there are too many. Three hundred and twenty is 64 in the low byte.
fn add_bonds(bonds: &mut Vec<(u8, u8)>, random: &mut Random) {
    let wanted = random.pick(&[65, 65, 66, 80, 128, 256, 257, 320, 512]);
    while bonds.len() < wanted {
        let (a, b) = (random.below(64) as u8, random.below(64) as u8);
        if a != b && !bonds.contains(&(a, b)) && !bonds.contains(&(b, a)) {
            bonds.push((a, b));
        }
    }
}

/// Single faults and sound neighbours at the edges of the limits.
pub fn at_the_edges() -> Vec<Damaged> {
    let ring = |size: usize| Sketch::ring(size).bonds;
    let with = |atoms: u64, bonds: &[(u8, u8)], refusal: u8| Damaged {
        table: Table::new(atoms, bonds),
        refusal,
    };
    let bytes = |atoms: u64, length: usize, refusal: u8| Damaged {
        table: Table {
            atoms,
            bytes: vec![1; length],
        },
        refusal,
    };
    let mut made = Vec::new();
    for atoms in [1, 2, 63, 64] {
        made.push(with(atoms, &[], 0));
    }
    let of_a_byte = [0, 65, 66, 127, 128, 129, 192, 200, 254, 255];
    let of_more = [256, (1 << 32) + 64, (1 << 63) + 1, u64::MAX];
    for atoms in of_a_byte.into_iter().chain(of_more) {
        made.push(with(atoms, &[], 2));
        made.push(with(atoms, &[(0, 1)], 2));
        made.push(with(atoms, &[(0, 0)], 2));
        made.push(bytes(atoms, 1, 1));
        made.push(bytes(atoms, 130, 2));
    }
    for (length, refusal) in [
        (1, 1),
        (2, 5),
        (3, 1),
        (127, 1),
        (128, 5),
        (129, 1),
        (130, 3),
        (131, 1),
        (255, 1),
        (256, 3),
    ] {
        made.push(bytes(64, length, refusal));
    }
    for (length, refusal) in [
        (510, 3),
        (511, 1),
        (512, 3),
        (514, 3),
        (640, 3),
        (8_192, 3),
        (32_000, 3),
        (32_001, 1),
    ] {
        made.push(bytes(64, length, refusal));
    }
    for atoms in [1, 2, 3, 63, 64] {
        let (last, end) = (atoms as u8 - 1, atoms as u8);
        made.push(with(atoms, &[(0, end)], 4));
        made.push(with(atoms, &[(end, 0)], 4));
        made.push(with(atoms, &[(end, end)], 4));
        made.push(with(atoms, &[(255, last)], 4));
        made.push(with(atoms, &[(last, last)], 5));
        made.push(with(atoms, &[(last, last), (0, end)], 4));
        made.push(with(atoms, &[(0, 0), (last, last), (0, 0)], 5));
    }
    made.push(with(64, &ring(64), 0));
    made.push(with(63, &ring(64), 4));
    made.push(with(65, &ring(64), 2));
    made.push(with(64, &[ring(64), vec![(0, 2)]].concat(), 3));
    made.push(with(64, &[ring(64), vec![(0, 1)]].concat(), 3));
    made.push(with(63, &[ring(63), vec![(62, 0)]].concat(), 6));
    made.push(with(63, &[ring(63), vec![(0, 62)]].concat(), 6));
    made.push(with(63, &[ring(63), vec![(0, 1)]].concat(), 6));
    made.push(with(63, &[vec![(1, 0)], ring(63)].concat(), 6));
    made.push(with(3, &[(0, 1), (1, 2), (1, 0), (2, 2)], 5));
    made.push(with(3, &[(0, 1), (0, 1), (0, 1)], 6));
    made
}
