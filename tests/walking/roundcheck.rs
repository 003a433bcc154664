//! The test of rings in walking order: orders worked out by hand, orders found by trying all, and the words of the definition.

use crate::answers::Found;
use crate::asked::Asked;
use crate::examples::examples;
use crate::protocol::{hex, walk_bytes, Program};
use crate::random::Random;
use crate::round::{members, Round};
use crate::selfcheck::{printed, Report};
use crate::table::Table;
use crate::walk::Graph;

/// Rings of examples, with their atoms and bonds in order, and sets that are no rings.
const BY_HAND: [(&str, u64, Option<(&[u8], &[u8])>); 16] = [
    ("S1", 0, None),
    ("S2", 1, None),
    ("S3", 7, Some((&[0, 1, 2], &[0, 1, 2]))),
    ("S3", 15, None),
    ("S4", 15, Some((&[0, 1, 2, 3], &[0, 1, 2, 3]))),
    ("S4", 19, Some((&[0, 1, 2], &[0, 1, 4]))),
    ("S4", 28, Some((&[2, 3, 0], &[2, 3, 4]))),
    ("S4", 31, None),
    ("S5", 56, Some((&[0, 3, 4], &[3, 4, 5]))),
    ("S5", 63, None),
    ("S6", 199, Some((&[0, 1, 2, 3, 6], &[0, 1, 2, 7, 6]))),
    ("S6", 248, Some((&[3, 4, 5, 0, 6], &[3, 4, 5, 6, 7]))),
    ("S6", 199 + 256, None),
    ("S7", 45, Some((&[0, 1, 2, 3], &[0, 3, 5, 2]))),
    ("S7", 51, Some((&[0, 1, 3, 2], &[0, 4, 5, 1]))),
    ("S7", 30, Some((&[0, 2, 1, 3], &[1, 3, 4, 2]))),
];

/// The table of an example.
fn example(name: &str) -> Table {
    let found = examples().into_iter().find(|example| example.name == name);
    found.expect("an example has this name").table
}

fn round_of(atoms: &[u8], bonds: &[u8]) -> Round {
    Round {
        atoms: atoms.to_vec(),
        bonds: bonds.to_vec(),
    }
}

/// The orders by hand, and what is printed for walks with different rooms.
pub fn by_hand(report: &mut Report) {
    for (name, set, wanted) in BY_HAND {
        let wanted = wanted.map(|(atoms, bonds)| round_of(atoms, bonds));
        let got = Graph::of(&example(name)).round(set);
        report.same(&format!("{name}, set {set} in order"), &Some(wanted), got);
    }
    for (name, set, rooms, wanted) in [
        ("S4", 19, (3, 4), "walk 13 0 3 0 1 2 / 0 1 4 68"),
        ("S4", 19, (4, 3), "walk 13 0 3 0 1 2 a8 / 0 1 4"),
        ("S4", 19, (2, 3), "walk 13 8 0 a5 a6 / 65 66 67"),
        ("S4", 19, (3, 2), "walk 13 8 0 a5 a6 a7 / 65 66"),
        ("S4", 31, (1, 0), "walk 1f 9 0 a5 /"),
        ("S9", 31, (1, 0), "walk 1f 4 0 a5 /"),
        ("S13, seventh atom", 35, (3, 3), "walk 23 0 3 0 1 2 / 0 5 1"),
    ] {
        let printed = printed(
            Program::Walks,
            &walk_bytes(&example(name), &[asked(set, rooms)]),
        );
        let wanted = format!("1\n{wanted}\n");
        report.same(&format!("{name}, set {set}"), &Some(wanted), printed);
    }
    records(report);
}

fn asked(set: u64, (for_atoms, for_bonds): (u8, u8)) -> Asked {
    Asked {
        set,
        for_atoms,
        for_bonds,
    }
}

/// The bytes of a record that asks for walks, and what is printed for it by either name; one that breaks off within a walk.
fn records(report: &mut Report) {
    let input = walk_bytes(&example("S3"), &[asked(7, (3, 3)), asked(1 << 63, (0, 1))]);
    let bytes = "10000103110006000101020200 1e000a00000000000000070303 1e000a80000000000000000001";
    let bytes = bytes.replace(' ', "");
    report.same("a record with walks", &Some(bytes), hex(&input));
    let wanted = "1\nwalk 7 0 3 0 1 2 / 0 1 2\nwalk 8000000000000000 9 0 / 65\n".to_string();
    for program in [Program::Answers, Program::Walks] {
        let wanted = Some(wanted.clone());
        report.same("lines of walks", &wanted, printed(program, &input));
        let cut = printed(program, &input[..input.len() - 1]);
        report.same("a walk cut short", &Some("1 frame\n".to_string()), cut);
    }
}

/// Every set of bonds of a small table: a ring has one order among all that can be tried, and what is no ring has none.
pub fn by_trying(report: &mut Report, table: &Table) {
    let graph = Graph::of(table);
    let all = Found::of(table).all;
    report.check(
        (0..1u64 << graph.ends.len()).all(|set| {
            let mut orders = Vec::new();
            if set != 0 {
                let first = set.trailing_zeros() as usize;
                let (a, b) = graph.ends[first];
                let start = round_of(&[a.min(b) as u8, a.max(b) as u8], &[first as u8]);
                try_orders(&graph, set, &start, &mut orders);
            }
            let one = graph.round(set).into_iter().collect::<Vec<Round>>();
            orders == one && all.contains(&set) == !one.is_empty()
        }),
        || format!("every set in order by trying: {}", table.shown()),
    );
}

/// Goes on with every bond of the set that leaves the last atom for a new one, and notes where all bonds lead back to the first.
fn try_orders(graph: &Graph, set: u64, so_far: &Round, orders: &mut Vec<Round>) {
    let (start, at) = (so_far.atoms[0], so_far.atoms[so_far.atoms.len() - 1]);
    for bond in members(set).filter(|&bond| !so_far.bonds.contains(&(bond as u8))) {
        let (a, b) = (graph.ends[bond].0 as u8, graph.ends[bond].1 as u8);
        if a != at && b != at {
            continue;
        }
        let to = if a == at { b } else { a };
        let mut longer = so_far.clone();
        longer.bonds.push(bond as u8);
        let whole = longer.bonds.len() == set.count_ones() as usize;
        if whole && to == start {
            orders.push(longer);
        } else if !longer.atoms.contains(&to) {
            longer.atoms.push(to);
            try_orders(graph, set, &longer, orders);
        }
    }
}

/// Every ring of a larger table in order, by the words of the definition; and a sum of two rings has an order just if it is listed.
pub fn by_words(report: &mut Report, table: &Table, rings: &[u64], random: &mut Random) {
    let graph = Graph::of(table);
    report.check(
        rings.iter().all(|&ring| {
            let round = graph.round(ring);
            round.is_some_and(|round| is_walk(&graph, ring, &round))
        }),
        || format!("rings in order: {}", table.shown()),
    );
    for _ in 0..if rings.is_empty() { 0 } else { 20 } {
        let sum = random.pick(rings) ^ random.pick(rings);
        report.check(graph.round(sum).is_some() == rings.contains(&sum), || {
            format!("sum {sum:x} of two rings: {}", table.shown())
        });
    }
}

/// As many atoms and bonds as the set has; from the lower atom of the lowest bond; each bond leads to the next atom, the last back to the
/// first; and each atom is left by the one other bond of the set there.
fn is_walk(graph: &Graph, set: u64, round: &Round) -> bool {
    let size = set.count_ones() as usize;
    let atom = |place: usize| usize::from(round.atoms[place % size]);
    let bond = |place: usize| usize::from(round.bonds[place % size]);
    let meets = |bond: usize, a: usize| graph.ends[bond].0 == a || graph.ends[bond].1 == a;
    let joins = |bond: usize, a: usize, b: usize| a != b && meets(bond, a) && meets(bond, b);
    let others = |place: usize| {
        let other = |&k: &usize| meets(k, atom(place + 1)) && k != bond(place);
        members(set).filter(other).collect::<Vec<usize>>()
    };
    let lowest = set.trailing_zeros() as usize;
    let (a, b) = graph.ends[lowest];
    round.atoms.len() == size
        && round.bonds.len() == size
        && bond(0) == lowest
        && atom(0) == a.min(b)
        && (0..size).all(|place| joins(bond(place), atom(place), atom(place + 1)))
        && (0..size).all(|place| others(place) == [bond(place + 1)])
        && (1..size).all(|place| atom(place) != atom(0))
}
