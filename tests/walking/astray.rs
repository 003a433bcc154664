//! Errors put into walks on demand, as those of wrong.rs are put into the other answers.

use crate::answers::{is_tangled, ROOM, TANGLED};
use crate::asked::{answered, found, Asked, Walked, NOTRING};
use crate::round::{members, Round};
use crate::walk::{assemblies, Graph};

#[derive(Clone, Copy, PartialEq, Debug)]
pub enum Astray {
    HigherStart,
    Backwards,
    LastBondOut,
    StartTwice,
    EmptyTaken,
    PathTaken,
    TwoRingsTaken,
    CrossingTaken,
    BeyondTaken,
    SetFirst,
    RoomFirst,
    TangledRefused,
    ExactRoomRefused,
    AtomsAlone,
    BondsAlone,
    BothCounted,
    RestTouched,
}

use Astray::*;

impl Astray {
    /// The answer with the error in it.
    pub fn walked(self, table: &Result<Graph, u8>, asked: &Asked) -> Walked {
        let found = match (table, found(table, asked.set)) {
            (Ok(graph), Err(NOTRING)) => self.taken(graph, asked.set).ok_or(NOTRING),
            (_, found) => found,
        };
        let found = self.refused(table, asked, found);
        let mut walked = answered(found.clone().map(|round| self.turned(round)), asked);
        self.spoil(&found.unwrap_or_default(), &mut walked);
        walked
    }

    /// A set that is no ring, taken for one.
    fn taken(self, graph: &Graph, set: u64) -> Option<Round> {
        let within = members(set).filter(|&bond| bond < graph.ends.len());
        let within = within.fold(0, |set, bond| set | 1 << bond);
        let at_each = |holds: fn(usize) -> bool| {
            let whole = set != 0 && within == set && graph.part(set) == set;
            whole && graph.bonds_at(set).into_iter().all(holds)
        };
        match self {
            EmptyTaken => (set == 0).then(Round::default),
            PathTaken => at_each(|bonds| bonds <= 2).then(|| rising(graph, set)),
            CrossingTaken => at_each(|bonds| bonds % 2 == 0).then(|| rising(graph, set)),
            TwoRingsTaken if within == set => graph.round(graph.part(set)),
            BeyondTaken => graph.round(within),
            _ => None,
        }
    }

    /// What is found, with other refusals.
    fn refused(
        self,
        table: &Result<Graph, u8>,
        asked: &Asked,
        found: Result<Round, u8>,
    ) -> Result<Round, u8> {
        let rooms = [asked.for_atoms, asked.for_bonds].map(usize::from);
        let size = asked.set.count_ones() as usize;
        match (self, table) {
            (SetFirst, Err(_)) => Err(NOTRING),
            (RoomFirst, Ok(_)) if rooms.iter().any(|&room| room < size) => Err(ROOM),
            (TangledRefused, Ok(graph)) => {
                let basis = graph.basis_rings();
                let tangled = is_tangled(&basis, &assemblies(&basis));
                if tangled {
                    Err(TANGLED)
                } else {
                    found
                }
            }
            (ExactRoomRefused, Ok(_)) if found.is_ok() && rooms.contains(&size) => Err(ROOM),
            _ => found,
        }
    }

    /// A ring in another order.
    fn turned(self, mut round: Round) -> Round {
        match self {
            HigherStart => {
                round.atoms[2..].reverse();
                round.atoms.swap(0, 1);
                round.bonds[1..].reverse();
            }
            Backwards => {
                round.atoms[1..].reverse();
                round.bonds.reverse();
            }
            LastBondOut => {
                round.atoms.pop();
                round.bonds.pop();
            }
            StartTwice => round.atoms.push(round.atoms[0]),
            _ => {}
        }
        round
    }

    /// Another count, or other bytes in the lists.
    fn spoil(self, round: &Round, walked: &mut Walked) {
        let write = |items: &[u8], list: &mut Vec<u8>| {
            if walked.number == ROOM && items.len() <= list.len() {
                list[..items.len()].copy_from_slice(items);
            }
        };
        match self {
            AtomsAlone => write(&round.atoms, &mut walked.atoms),
            BondsAlone => write(&round.bonds, &mut walked.bonds),
            BothCounted => walked.count *= 2,
            RestTouched if walked.count < walked.bonds.len() => walked.bonds[walked.count] = 0,
            _ => {}
        }
    }
}

/// The bonds of a set, and as many of its atoms, by their numbers.
fn rising(graph: &Graph, set: u64) -> Round {
    let bonds: Vec<u8> = members(set).map(|bond| bond as u8).collect();
    let atoms = members(graph.atoms_of(set)).map(|atom| atom as u8);
    Round {
        atoms: atoms.take(bonds.len()).collect(),
        bonds,
    }
}
