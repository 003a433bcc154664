//! Errors put into the search on demand, to see that a comparison reports them (planted.rs). Among them are the traps of
//! docs/REFERENCE.md. Those of the size lookup are put in where its lines are made (lists.rs), those of walks by astray.rs.

use crate::answers::{by_assembly, frerejacque, reduced_basis, smallest_basis, Found};
use crate::astray::Astray::{self, *};
use crate::protocol::Program;
use crate::table::Table;
use crate::walk::{in_order, Graph};

#[derive(Clone, Copy, PartialEq, Debug)]
pub enum Wrong {
    GibbsOnReduced,
    LiteralStep,
    CutToTen,
    EveryEvenSet,
    OnePass,
    PairwiseSmallest,
    SelfBeforeEnd,
    TwiceOneWay,
    NumberOrder,
    SpiroTogether,
    TakenForOneFragment,
    LoneAtomsLeftOut,
    BondLost,
    PairsUnsorted,
    ExactFitRefused,
    RestWritten,
    WrittenWhenRefused,
    LookupFirstOnly,
    LookupOneWord,
    EndAfterFrame,
    Walk(Astray),
}

use Wrong::*;

/// The errors by the names that `--wrong` takes.
pub const ERRORS: [(&str, Wrong); 37] = [
    ("gibbs-on-reduced", GibbsOnReduced),
    ("literal-step", LiteralStep),
    ("cut-to-ten", CutToTen),
    ("every-even-set", EveryEvenSet),
    ("one-pass", OnePass),
    ("pairwise-smallest", PairwiseSmallest),
    ("self-before-end", SelfBeforeEnd),
    ("twice-one-way", TwiceOneWay),
    ("number-order", NumberOrder),
    ("spiro-together", SpiroTogether),
    ("taken-for-one-fragment", TakenForOneFragment),
    ("lone-atoms-left-out", LoneAtomsLeftOut),
    ("bond-lost", BondLost),
    ("pairs-unsorted", PairsUnsorted),
    ("exact-fit-refused", ExactFitRefused),
    ("rest-written", RestWritten),
    ("written-when-refused", WrittenWhenRefused),
    ("lookup-first-only", LookupFirstOnly),
    ("lookup-one-word", LookupOneWord),
    ("end-after-frame", EndAfterFrame),
    ("walk-higher-start", Walk(HigherStart)),
    ("walk-backwards", Walk(Backwards)),
    ("walk-last-bond-out", Walk(LastBondOut)),
    ("walk-start-twice", Walk(StartTwice)),
    ("walk-empty-taken", Walk(EmptyTaken)),
    ("walk-path-taken", Walk(PathTaken)),
    ("walk-two-rings-taken", Walk(TwoRingsTaken)),
    ("walk-crossing-taken", Walk(CrossingTaken)),
    ("walk-beyond-taken", Walk(BeyondTaken)),
    ("walk-set-first", Walk(SetFirst)),
    ("walk-room-first", Walk(RoomFirst)),
    ("walk-tangled-refused", Walk(TangledRefused)),
    ("walk-exact-room-refused", Walk(ExactRoomRefused)),
    ("walk-atoms-alone", Walk(AtomsAlone)),
    ("walk-bonds-alone", Walk(BondsAlone)),
    ("walk-both-counted", Walk(BothCounted)),
    ("walk-rest-touched", Walk(RestTouched)),
];

/// The programs whose answers an error spoils: `ringline` prints refusals and labels, `answers` lists and rooms too, `walks` rings in
/// walking order, and `lookups` what the size lookup hands back.
pub fn shown_by(wrong: Wrong) -> &'static [Program] {
    match wrong {
        EndAfterFrame => &[Program::Ringline],
        Walk(_) => &[Program::Walks],
        LookupFirstOnly | LookupOneWord => &[Program::Lookups],
        NumberOrder | ExactFitRefused | RestWritten | WrittenWhenRefused => &[Program::Answers],
        _ => &[Program::Ringline, Program::Answers],
    }
}

impl Wrong {
    /// Spoils what was found for a table.
    pub fn spoil(self, table: &Table, found: &mut Found) {
        self.spoil_refusal(table, found);
        if found.refusal != 0 {
            return;
        }
        match self {
            CutToTen => cut_to_ten(table, found),
            OnePass => found.assemblies = one_pass(&found.basis),
            SpiroTogether => found.assemblies = together_at_atoms(table, &found.basis),
            _ => {}
        }
        if found.tangled {
            return;
        }
        match self {
            GibbsOnReduced => found.all = all_by_gibbs(&found.reduced, &found.assemblies, false),
            LiteralStep => found.all = all_by_gibbs(&found.basis, &found.assemblies, true),
            EveryEvenSet if found.basis.len() <= 10 => found.all = all_sums(&found.basis),
            PairwiseSmallest => {
                found.smallest = reduced_basis(&found.basis, &found.assemblies);
                in_order(&mut found.smallest);
            }
            NumberOrder => found.all.sort_unstable(),
            BondLost => found.all.iter_mut().for_each(|ring| *ring &= u64::MAX >> 1),
            _ => {}
        }
        found.write_fields(table);
        match self {
            TakenForOneFragment => found.label[3] = frerejacque(table, 1),
            LoneAtomsLeftOut => {
                let graph = Graph::of(table);
                found.label[3] = frerejacque(table, graph.fragments() - graph.lone_atoms());
            }
            PairsUnsorted => unsort_pairs(found),
            _ => {}
        }
    }

    fn spoil_refusal(self, table: &Table, found: &mut Found) {
        let bonds = table.bonds();
        match (self, found.refusal) {
            (SelfBeforeEnd, 4) if bonds.iter().any(|&(a, b)| a == b) => found.refusal = 5,
            (TwiceOneWay, 6) if (1..bonds.len()).all(|k| !bonds[..k].contains(&bonds[k])) => {
                found.refusal = 0
            }
            _ => {}
        }
    }

    /// Spoils what is printed for a record.
    pub fn spoil_text(self, text: &str) -> String {
        text.lines()
            .map(|line| self.spoil_line(line) + "\n")
            .collect()
    }

    fn spoil_line(self, line: &str) -> String {
        let words: Vec<&str> = line.split(' ').collect();
        match (self, words.as_slice()) {
            (EndAfterFrame, [number, "frame"]) => format!("{number} frame\nend {number}"),
            (ExactFitRefused, ["basis" | "all" | "smallest", "0", count, lent @ ..])
                if *count == lent.len().to_string() =>
            {
                format!("{} 8 0 {}", words[0], lent.join(" "))
            }
            (RestWritten, ["all", "0", count, lent @ ..])
                if count.parse() == Ok(lent.len().max(1) - 1) =>
            {
                format!(
                    "all 0 {count} {} 0",
                    lent[..lent.len().max(1) - 1].join(" ")
                )
            }
            (WrittenWhenRefused, [entry, "8", "0", _, rest @ ..]) => {
                format!("{entry} 8 0 0 {}", rest.join(" "))
            }
            _ => line.into(),
        }
    }
}

/// Gibbs' combination within one assembly. Right for basis rings, each of which has a bond that no other has; `literal`
/// takes the printed step 3 at its word and intersects the old set with the sum.
pub fn gibbs(basis: &[u64], literal: bool) -> Vec<u64> {
    let mut sums: Vec<u64> = Vec::new();
    let mut rings = Vec::new();
    for &ring in basis {
        let meets = |old: u64| old & (if literal { old ^ ring } else { ring }) != 0;
        let new: Vec<u64> = sums
            .iter()
            .filter(|&&old| meets(old))
            .map(|old| old ^ ring)
            .collect();
        rings.extend(
            new.iter()
                .filter(|&&s| !new.iter().any(|&t| t != s && t & s == t)),
        );
        rings.push(ring);
        let sums_of_ring: Vec<u64> = sums.iter().map(|old| old ^ ring).collect();
        sums.extend(sums_of_ring);
        sums.push(ring);
    }
    rings
}

/// All rings by Gibbs' combination, assembly by assembly.
pub fn all_by_gibbs(basis: &[u64], assemblies: &[u8], literal: bool) -> Vec<u64> {
    let mut rings: Vec<u64> = by_assembly(basis, assemblies)
        .iter()
        .flat_map(|basis| gibbs(basis, literal))
        .collect();
    in_order(&mut rings);
    rings
}

/// Every non-empty even set, as the sums of basis rings.
pub fn all_sums(basis: &[u64]) -> Vec<u64> {
    let mut sums = vec![0u64];
    for ring in basis {
        let with_ring: Vec<u64> = sums.iter().map(|sum| sum ^ ring).collect();
        sums.extend(with_ring);
    }
    sums.retain(|&sum| sum != 0);
    in_order(&mut sums);
    sums
}

/// Each assembly loses its basis rings beyond the tenth, and nothing is tangled.
fn cut_to_ten(table: &Table, found: &mut Found) {
    if !found.tangled {
        return;
    }
    found.tangled = false;
    let assemblies = by_assembly(&found.basis, &found.assemblies);
    let kept = assemblies.iter().map(|rings| &rings[..rings.len().min(10)]);
    found.all = kept.flat_map(|rings| gibbs(rings, false)).collect();
    in_order(&mut found.all);
    found.smallest = smallest_basis(&found.all);
    found.write_fields(table);
}

/// One pass only: a ring joins the assembly that an earlier ring began if they share a bond.
fn one_pass(basis: &[u64]) -> Vec<u8> {
    let mut begun: Vec<u64> = Vec::new();
    basis
        .iter()
        .map(
            |&ring| match begun.iter().position(|bonds| bonds & ring != 0) {
                Some(assembly) => {
                    begun[assembly] |= ring;
                    assembly as u8
                }
                None => {
                    begun.push(ring);
                    begun.len() as u8 - 1
                }
            },
        )
        .collect()
}

/// Assemblies of rings that share an atom.
fn together_at_atoms(table: &Table, basis: &[u64]) -> Vec<u8> {
    let graph = Graph::of(table);
    let atoms_of = |ring: &u64| {
        let on_ring = graph
            .ends
            .iter()
            .enumerate()
            .filter(|(bond, _)| ring >> bond & 1 == 1);
        on_ring.fold(0u64, |atoms, (_, &(a, b))| atoms | 1 << a | 1 << b)
    };
    crate::walk::assemblies(&basis.iter().map(atoms_of).collect::<Vec<u64>>())
}

/// The label's pairs in the order of the assemblies.
fn unsort_pairs(found: &mut Found) {
    let pairs = by_assembly(&found.basis, &found.assemblies);
    let start = found.label.len() - 2 * pairs.len();
    for (place, rings) in pairs.iter().enumerate() {
        found.label[start + 2 * place] = rings.len() as u8;
        found.label[start + 2 * place + 1] = rings
            .iter()
            .fold(0, |union, ring| union | ring)
            .count_ones() as u8;
    }
}
