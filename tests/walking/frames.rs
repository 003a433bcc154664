//! Frames: cages, prisms, wheels, grids and complete graphs, and the random tables built from them and from growth.

use crate::random::Random;
use crate::sketch::Sketch;

/// Every pair of atoms bonded that a test lets pass.
fn where_bonded(atoms: usize, test: impl Fn(usize, usize) -> bool) -> Sketch {
    let mut sketch = Sketch::of_atoms(atoms);
    for a in 0..atoms {
        for b in a + 1..atoms {
            if test(a, b) {
                sketch.bond(a, b);
            }
        }
    }
    sketch
}

pub fn complete(atoms: usize) -> Sketch {
    where_bonded(atoms, |_, _| true)
}

fn complete_in_two(left: usize, right: usize) -> Sketch {
    where_bonded(left + right, |a, b| a < left && b >= left)
}

/// Corners are numbers of that many binary digits, bonded where they differ in one: the square, the cube and on.
pub fn hypercube(digits: u32) -> Sketch {
    where_bonded(1 << digits, |a, b| (a ^ b).count_ones() == 1)
}

fn grid(rows: usize, columns: usize) -> Sketch {
    where_bonded(rows * columns, |a, b| {
        (b == a + 1 && b % columns != 0) || b == a + columns
    })
}

/// An outer ring, spokes, and inner bonds that leap a number of places: prisms (1), Petersen's graph (5, 2), the
/// dodecahedron (10, 2).
pub fn petersen(size: usize, leap: usize) -> Sketch {
    let mut sketch = Sketch::of_atoms(2 * size);
    for i in 0..size {
        sketch.bond(i, (i + 1) % size);
        sketch.bond(i, size + i);
        sketch.bond(size + i, size + (i + leap) % size);
    }
    sketch
}

/// A ring whose opposite atoms are bonded.
fn moebius_ladder(half: usize) -> Sketch {
    let mut sketch = Sketch::ring(2 * half);
    for i in 0..half {
        sketch.bond(i, i + half);
    }
    sketch
}

fn wheel(size: usize) -> Sketch {
    let mut sketch = Sketch::ring(size);
    let hub = sketch.atoms;
    sketch.atoms += 1;
    for i in 0..size {
        sketch.bond(hub, i);
    }
    sketch
}

fn antiprism(size: usize) -> Sketch {
    let mut sketch = petersen(size, 1);
    for i in 0..size {
        sketch.bond(i, size + (i + 1) % size);
    }
    sketch
}

/// Two atoms joined by several paths.
fn theta(paths: &[usize]) -> Sketch {
    let mut sketch = Sketch::of_atoms(2);
    for &inner in paths {
        sketch.ear(0, 1, inner);
    }
    sketch
}

/// A ring of six with three bridges that meet at one atom more each way: the frame of adamantane.
fn adamantane() -> Sketch {
    let mut sketch = Sketch::ring(6);
    let top = sketch.atoms;
    sketch.atoms += 1;
    for i in [0, 2, 4] {
        sketch.ear(i, top, 1);
    }
    sketch
}

/// A row of triangles, each sharing an atom with the next.
fn spiro_row(rings: usize) -> Sketch {
    let mut sketch = Sketch::of_atoms(1);
    for _ in 0..rings {
        sketch.ear(sketch.atoms - 1, sketch.atoms - 1, 2);
    }
    sketch
}

/// The same frame several times, as fragments.
fn several(sketch: &Sketch, times: usize) -> Sketch {
    let mut all = Sketch::default();
    for _ in 0..times {
        all.beside(sketch);
    }
    all
}

/// Sodium benzoate: a ring of six with a carboxylate, and an ion of one atom.
fn sodium_benzoate() -> Sketch {
    let mut sketch = Sketch::ring(6);
    sketch.chain(0, 2);
    sketch.chain(6, 1);
    sketch.beside(&Sketch::of_atoms(1));
    sketch
}

/// Frames at the ends of what the limits allow, and well-known ones.
pub fn known() -> Vec<Sketch> {
    let dodecahedron = petersen(10, 2);
    let mut less_a_bond = dodecahedron.clone();
    less_a_bond.bonds.pop();
    // As many basis rings as 64 bonds can close: 53, on twelve atoms.
    let mut densest = complete(11);
    densest.atoms += 1;
    for a in 0..9 {
        densest.bond(a, 11);
    }
    // More than 255 rings of one size.
    let four_tangles = several(&complete(6), 4);
    let mut longest = Sketch::ring(63);
    longest.bond(20, 50);
    vec![
        complete(5),
        complete(7),
        hypercube(3),
        petersen(5, 2),
        dodecahedron,
        less_a_bond,
        densest,
        four_tangles,
        longest,
        spiro_row(21),
        several(&Sketch::ring(4), 16),
        several(&Sketch::line(2), 32),
        sodium_benzoate(),
        several(&sodium_benzoate(), 6),
        adamantane(),
    ]
}

/// A cage or another regular frame.
pub fn frame(random: &mut Random) -> Sketch {
    match random.below(17) {
        0 => complete(random.within(4, 7)),
        1 => hypercube(random.within(2, 4) as u32),
        2 => petersen(random.within(3, 8), 1),
        3 => petersen(5, 2),
        4 => petersen(10, 2),
        5 => petersen(random.within(5, 9), 3),
        6 => moebius_ladder(random.within(3, 9)),
        7 => wheel(random.within(3, 12)),
        8 => antiprism(random.within(3, 5)),
        9 => adamantane(),
        10 => complete_in_two(random.within(2, 4), random.within(3, 4)),
        11 => grid(random.within(2, 5), random.within(2, 5)),
        12 => complete_in_two(2, random.within(3, 12)),
        13 => spiro_row(random.within(2, 21)),
        14 => theta(
            &(0..random.within(3, 6))
                .map(|i| i + random.below(5))
                .collect::<Vec<usize>>(),
        ),
        15 => Sketch::ring(random.within(3, 64)),
        _ => theta(&[1, 2, 2]),
    }
}

/// A frame, disturbed, with further frames beside it, at one of its atoms or over a bond.
pub fn cages(random: &mut Random) -> Sketch {
    let mut sketch = frame(random);
    sketch.disturb(random);
    for _ in 0..random.pick(&[0, 0, 1, 1, 2, 4]) {
        let old = random.below(sketch.atoms);
        let Some(first) = sketch.beside(&frame(random)) else {
            continue;
        };
        match random.below(3) {
            0 => {}
            1 => {
                sketch.bond(old, first);
            }
            _ => share_atom(&mut sketch, old, first),
        }
    }
    sketch
}

/// Makes one atom of two: every bond of the second goes to the first, and the second stays as an atom without bonds.
fn share_atom(sketch: &mut Sketch, kept: usize, left: usize) {
    let moved = |a: u8| {
        if usize::from(a) == left {
            kept as u8
        } else {
            a
        }
    };
    sketch
        .bonds
        .iter_mut()
        .for_each(|bond| *bond = (moved(bond.0), moved(bond.1)));
}

/// A molecule grown step by step: fused, bridged, spiro, chains, several fragments.
pub fn grown(random: &mut Random) -> Sketch {
    let mut sketch = if random.once_in(2) {
        Sketch::ring(random.within(3, 8))
    } else {
        Sketch::of_atoms(1)
    };
    for _ in 0..random.within(1, 14) {
        sketch.grow(random);
    }
    sketch
}

/// A salt of two to many fragments, ions of one atom among them.
pub fn salt(random: &mut Random) -> Sketch {
    let mut sketch = Sketch::default();
    for _ in 0..random.pick(&[2, 2, 3, 4, 8, 20, 64]) {
        let ion = match random.below(4) {
            0 | 1 => Sketch::of_atoms(1),
            2 => Sketch::line(random.within(2, 5)),
            _ => grown(random),
        };
        sketch.beside(&ion);
    }
    sketch
}

/// Bonds between random atoms; few atoms make it dense.
pub fn scattered(random: &mut Random, most_atoms: usize) -> Sketch {
    let mut sketch = Sketch::of_atoms(random.within(1, most_atoms));
    for _ in 0..random.within(0, 64) {
        let (a, b) = (random.below(sketch.atoms), random.below(sketch.atoms));
        sketch.bond(a, b);
    }
    sketch
}

/// Long chains, large rings and what can be hung on them within the limits.
pub fn long(random: &mut Random) -> Sketch {
    match random.below(6) {
        0 => Sketch::line(random.within(50, 64)),
        1 => Sketch::ring(random.within(50, 64)),
        2 => Sketch::ring(64),
        3 => {
            let mut sketch = Sketch::ring(random.within(40, 62));
            let (a, b) = (random.below(sketch.atoms), random.below(sketch.atoms));
            sketch.ear(a, b, random.below(3));
            sketch
        }
        4 => {
            let mut sketch = Sketch::line(random.within(20, 40));
            while sketch.chain(random.below(sketch.atoms), random.within(1, 4)) {}
            sketch
        }
        _ => {
            let mut sketch = Sketch::ring(random.within(20, 32));
            sketch.beside(&Sketch::ring(random.within(20, 32)));
            let (a, b) = (
                random.below(20),
                random.within(sketch.atoms - 20, sketch.atoms - 1),
            );
            sketch.bond(a, b);
            sketch
        }
    }
}

/// One assembly of exactly so many basis rings: ears between different atoms of a ring never leave its assembly.
pub fn assembly(random: &mut Random, rings: usize) -> Sketch {
    let mut sketch = Sketch::ring(random.within(4, 9));
    let mut have = 1;
    while have < rings {
        let (a, b) = (random.below(sketch.atoms), random.below(sketch.atoms));
        if a != b && sketch.ear(a, b, random.pick(&[0, 0, 0, 1, 1, 2])) {
            have += 1;
        }
    }
    sketch
}

/// Assemblies about the limit of ten basis rings, alone or with others beside them or at one of their atoms.
pub fn tangled(random: &mut Random) -> Sketch {
    let rings = random.pick(&[9, 10, 10, 10, 11, 11, 12]);
    let mut sketch = assembly(random, rings);
    for _ in 0..random.below(4) {
        let a = random.below(sketch.atoms);
        match random.below(3) {
            0 => sketch.ear(a, a, random.within(2, 4)),
            1 => sketch.chain(a, random.within(1, 4)),
            _ => {
                let rings = random.pick(&[1, 2, 10, 11]);
                sketch.beside(&assembly(random, rings)).is_some()
            }
        };
    }
    sketch
}
