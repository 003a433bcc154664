//! The search's own test: docs/REFERENCE.md's examples, and other ways to the same answers.

use crate::answers::{lookup, outcome, sizes, smallest_basis, Found, ROOM, TANGLED};
use crate::damaged::{all_sets_of_faults, at_the_edges};
use crate::examples::{examples, Example};
use crate::frames::{cages, complete, grown, hypercube, salt, tangled};
use crate::framing::example;
use crate::lists::Lists;
use crate::protocol::{hex, Program, Search};
use crate::random::Random;
use crate::roundcheck::{by_hand, by_trying, by_words};
use crate::set::small_graphs;
use crate::table::Table;
use crate::walk::{in_order, Graph};
use crate::wrong::{all_by_gibbs, all_sums};
use std::collections::HashSet;

/// Notes what does not hold.
#[derive(Default)]
pub struct Report {
    held: usize,
    failed: Vec<String>,
}

impl Report {
    pub fn check(&mut self, holds: bool, what: impl Fn() -> String) {
        if holds {
            self.held += 1;
        } else {
            self.failed.push(what());
        }
    }

    pub fn same<T: PartialEq + std::fmt::Debug>(&mut self, what: &str, wanted: &Option<T>, got: T) {
        if let Some(wanted) = wanted {
            self.check(*wanted == got, || {
                format!("{what}: wanted {wanted:?}, got {got:?}")
            });
        }
    }
}

/// Runs all tests, prints what fails, and says whether all hold.
pub fn run(seed: u64) -> bool {
    let mut report = Report::default();
    for example in examples() {
        document_example(&mut report, &example);
    }
    rooms_of_s14(&mut report);
    printed_example(&mut report);
    size_lookup(&mut report);
    by_hand(&mut report);
    let mut random = Random::new(seed);
    counted_rings(&mut report, &mut random);
    refusals(&mut report, &mut random);
    for atoms in 1..=5usize {
        for bonds in small_graphs(atoms) {
            let table = Table::new(atoms as u64, &bonds);
            by_definition(&mut report, &table);
            by_trying(&mut report, &table);
        }
    }
    for turn in 0..2_000 {
        let sketch = match turn % 4 {
            0 => grown(&mut random),
            1 => cages(&mut random),
            2 => salt(&mut random),
            _ => tangled(&mut random),
        };
        other_ways(&mut report, &sketch.table(), &mut random);
    }
    for failure in report.failed.iter().take(20) {
        println!("fails: {failure}");
    }
    println!("{} tests hold, {} fail", report.held, report.failed.len());
    report.failed.is_empty()
}

/// The values of docs/REFERENCE.md for an example.
fn document_example(report: &mut Report, example: &Example) {
    let found = Found::of(&example.table);
    let values = &example.values;
    let named = |entry: &str| format!("{} {entry}", example.name);
    report.same(
        &named("number"),
        &Some(values.number),
        found.refusal_of_rings(),
    );
    report.same(&named("basis"), &values.basis, found.basis.clone());
    report.same(
        &named("basis count"),
        &values.basis_count,
        found.basis.len(),
    );
    report.same(
        &named("assemblies"),
        &values.assemblies,
        found.assemblies.clone(),
    );
    report.same(&named("all"), &values.all, found.all.clone());
    report.same(&named("all, count"), &values.all_count, found.all.len());
    report.same(&named("all, sizes"), &values.all_sizes, sizes(&found.all));
    report.same(&named("smallest"), &values.smallest, found.smallest.clone());
    report.same(
        &named("smallest, sizes"),
        &values.smallest_sizes,
        sizes(&found.smallest),
    );
    report.same(&named("reduced"), &values.reduced, found.reduced.clone());
    report.same(
        &named("label"),
        &values.label.map(String::from),
        hex(&found.label),
    );
    if let Some(pairs) = values.pairs {
        report.check(hex(&found.label).ends_with(pairs), || named("pairs"));
    }
}

/// S14: two words are too few for S4's three rings and stay as lent; three are enough.
fn rooms_of_s14(report: &mut Report) {
    let Some(s4) = examples().into_iter().find(|example| example.name == "S4") else {
        report.check(false, || "S14: the example S4 is missing".into());
        return;
    };
    let found = Found::of(&s4.table);
    let few = outcome(found.refusal_of_rings(), &found.all, vec![5, 6]);
    report.check(
        (few.number, few.count, few.lent) == (ROOM, 0, vec![5, 6]),
        || "S14 with room for two".into(),
    );
    let enough = outcome(found.refusal_of_rings(), &found.all, vec![5, 6, 7]);
    report.check(
        (enough.number, enough.count, enough.lent) == (0, 3, vec![19, 28, 15]),
        || "S14 with room for three".into(),
    );
    let more = outcome(found.refusal_of_rings(), &found.all, vec![5, 6, 7, 8]);
    report.check(
        (more.number, more.count, more.lent) == (0, 3, vec![19, 28, 15, 8]),
        || "S14 with room for four".into(),
    );
}

/// What the search prints for a program.
pub fn printed(program: Program, input: &[u8]) -> String {
    let pieces = Search::new(None).text(program, input);
    pieces.into_iter().map(|piece| piece.text).collect()
}

/// The input and the output that docs/REFERENCE.md prints for `ringline`.
fn printed_example(report: &mut Report) {
    let print = |input: &[u8]| printed(Program::Ringline, input);
    report.check(
        hex(&example()) == "10000103110006000101020200100001021100020000",
        || "ringline's example input".into(),
    );
    let wanted = "rings 1\n1 0 0100010102000303000103000203010400020103\n2 5 -\nend 2\n";
    report.same(
        "ringline's example output",
        &Some(wanted.to_string()),
        print(&example()),
    );
    report.same(
        "empty input",
        &Some("rings 1\nend 0\n".to_string()),
        print(&[]),
    );
    report.same(
        "cut input",
        &Some("rings 1\n1 frame\n".to_string()),
        print(&example()[..12]),
    );
    report.same(
        "long input",
        &Some("long\n".to_string()),
        print(&[0; 32_769]),
    );
}

/// Hand-made lists for the size lookup.
fn size_lookup(report: &mut Report) {
    let first = [7, 11, 15, 13, 0, 0];
    let second = [1, 31, 61, 3];
    for (size, wanted) in [
        (3, &first[..2]),
        (4, &first[2..3]),
        (0, &first[4..]),
        (5, &second[1..3]),
        (1, &second[..1]),
        (6, &first[..0]),
    ] {
        report.same(
            &format!("lookup of size {size}"),
            &Some(wanted),
            lookup(&first, &second, size),
        );
    }
    let lists = Lists {
        first: first.to_vec(),
        second: second.to_vec(),
    };
    let wanted =
        "1\nlookup 0 0 0\nlookup 3 7 b\nlookup 4 f\nlookup 5 1f 3d\nlookup 6\nlookup 7\nlookup 8\n";
    report.same(
        "lines of lookups",
        &Some(wanted.to_string()),
        printed(Program::Lookups, &lists.bytes()),
    );
    report.same(
        "lists cut short",
        &Some("1 frame\n".to_string()),
        printed(Program::Lookups, &lists.bytes()[8..]),
    );
}

/// Known numbers of rings, by the walk, by the formula for complete graphs, and by walking at random.
fn counted_rings(report: &mut Report, random: &mut Random) {
    for (atoms, wanted) in [(4, 7), (5, 37), (6, 197)] {
        let mut by_formula = 0;
        let mut in_a_row = 1;
        for taken in 1..=atoms {
            in_a_row *= atoms + 1 - taken;
            by_formula += if taken >= 3 { in_a_row / taken / 2 } else { 0 };
        }
        report.same(
            &format!("rings of {atoms} atoms all joined, by formula"),
            &Some(wanted),
            by_formula,
        );
        same_at_random(
            report,
            &format!("{atoms} atoms all joined"),
            &complete(atoms).table(),
            wanted,
            random,
        );
    }
    same_at_random(report, "the cube", &hypercube(3).table(), 28, random);
}

fn same_at_random(
    report: &mut Report,
    name: &str,
    table: &Table,
    wanted: usize,
    random: &mut Random,
) {
    let graph = Graph::of(table);
    let rings = graph.all_rings();
    report.same(&format!("rings of {name}"), &Some(wanted), rings.len());
    let mut met: Vec<u64> = rings_met_at_random(&graph, random).into_iter().collect();
    in_order(&mut met);
    report.check(met == rings, || {
        format!("rings of {name} met at random: {}", met.len())
    });
}

/// The rings that random walks close: each walk steps over random bonds until it meets an atom for the second time.
fn rings_met_at_random(graph: &Graph, random: &mut Random) -> HashSet<u64> {
    let mut met = HashSet::new();
    for _ in 0..100_000 {
        let mut atoms = vec![random.below(graph.atoms)];
        let mut bonds: Vec<usize> = Vec::new();
        loop {
            let at = atoms[atoms.len() - 1];
            let bond = random.below(graph.ends.len());
            let (a, b) = graph.ends[bond];
            if (a != at && b != at) || bonds.last() == Some(&bond) {
                continue;
            }
            bonds.push(bond);
            let to = if a == at { b } else { a };
            if let Some(place) = atoms.iter().position(|&atom| atom == to) {
                met.insert(bonds[place..].iter().fold(0, |ring, bond| ring | 1 << bond));
                break;
            }
            atoms.push(to);
        }
    }
    met
}

/// Damaged tables give the lowest of the faults put in.
fn refusals(report: &mut Report, random: &mut Random) {
    for damaged in at_the_edges().into_iter().chain(all_sets_of_faults(random)) {
        let what = format!(
            "refusal of {} atoms, {}",
            damaged.table.atoms,
            damaged.table.shown()
        );
        report.same(&what, &Some(damaged.refusal), damaged.table.refusal());
    }
}

/// All rings and the smallest basis of a small table from the definitions' words, over all bond sets.
fn by_definition(report: &mut Report, table: &Table) {
    let graph = Graph::of(table);
    let found = Found::of(table);
    let meets = |set: u64, atom: usize| {
        let on_atom = graph
            .ends
            .iter()
            .enumerate()
            .filter(|(_, &(a, b))| a == atom || b == atom);
        on_atom.filter(|(bond, _)| set >> bond & 1 == 1).count()
    };
    let left_by_none = (0..1u64 << graph.atoms).filter(|atoms| {
        let mut ends = graph.ends.iter();
        ends.all(|&(a, b)| atoms >> a & 1 == atoms >> b & 1)
    });
    report.check(left_by_none.count() == 1 << graph.fragments(), || {
        format!("a set of fragments is left by no bond: {}", table.shown())
    });
    let even: Vec<u64> = (1..1u64 << graph.ends.len())
        .filter(|&set| (0..graph.atoms).all(|atom| meets(set, atom) % 2 == 0))
        .collect();
    let mut rings: Vec<u64> = even
        .iter()
        .copied()
        .filter(|&s| !even.iter().any(|&t| t != s && t & s == t))
        .collect();
    in_order(&mut rings);
    report.check(rings == found.all, || {
        format!("rings by definition: {}", table.shown())
    });
    let mut smallest: Vec<u64> = Vec::new();
    for ring in rings {
        if !all_sums(&smallest).contains(&ring) {
            smallest.push(ring);
        }
    }
    report.check(smallest == found.smallest, || {
        format!("smallest basis by definition: {}", table.shown())
    });
    let forest = (0..graph.ends.len())
        .filter(|bond| !graph.closure_bonds().contains(bond))
        .fold(0u64, |set, bond| set | 1 << bond);
    let basis: Vec<u64> = graph
        .closure_bonds()
        .iter()
        .flat_map(|bond| {
            even.iter()
                .copied()
                .filter(move |set| set & !forest == 1 << bond)
        })
        .collect();
    report.check(basis == found.basis, || {
        format!("basis rings by definition: {}", table.shown())
    });
}

/// Laws between the answers of a larger table: Gibbs' combination gives the same rings; the bases have one length and
/// span each other; the renumbered twin has the same label or refusal.
fn other_ways(report: &mut Report, table: &Table, random: &mut Random) {
    let found = Found::of(table);
    let how_many = found.basis.len();
    let twin = Found::of(&table.renumbered(random));
    report.check(
        (twin.refusal_of_rings(), &twin.label) == (found.refusal_of_rings(), &found.label),
        || format!("twin of {}", table.shown()),
    );
    report.check(
        smallest_basis(&[found.reduced.clone(), found.basis.clone()].concat()).len() == how_many,
        || format!("reduced basis spans the basis rings: {}", table.shown()),
    );
    if found.refusal_of_rings() == TANGLED {
        return;
    }
    report.check(
        all_by_gibbs(&found.basis, &found.assemblies, false) == found.all,
        || format!("Gibbs' rings: {}", table.shown()),
    );
    report.check(found.smallest.len() == how_many, || {
        format!("length of the smallest basis: {}", table.shown())
    });
    report.check(usize::from(found.label[3]) == how_many, || {
        format!("field 01 and the basis rings: {}", table.shown())
    });
    by_words(report, table, &found.all, random);
}
