//! A walk round a ring as it is asked for, and what is answered.

use crate::answers::{outcome, ROOM};
use crate::round::Round;
use crate::walk::Graph;

pub const NOTRING: u8 = 9;
const ATOM_LENT: usize = 0xa5;
const BOND_LENT: usize = 0x65;

/// A set of bonds, and how many bytes are lent for atoms and for bonds.
#[derive(Clone, Copy, PartialEq, Debug)]
pub struct Asked {
    pub set: u64,
    pub for_atoms: u8,
    pub for_bonds: u8,
}

impl Asked {
    /// The content of its field: the set with its high byte first, and both rooms.
    pub fn bytes(&self) -> Vec<u8> {
        [
            &self.set.to_be_bytes()[..],
            &[self.for_atoms, self.for_bonds],
        ]
        .concat()
    }

    pub fn read(content: &[u8]) -> Option<Asked> {
        let &[ref set @ .., for_atoms, for_bonds] = content else {
            return None;
        };
        Some(Asked {
            set: u64::from_be_bytes(set.try_into().ok()?),
            for_atoms,
            for_bonds,
        })
    }

    /// The lists as they are lent: atom i as ATOM_LENT + i and bond i as BOND_LENT + i, modulo 256.
    fn lent(&self) -> (Vec<u8>, Vec<u8>) {
        let list =
            |room: u8, first: usize| (0..usize::from(room)).map(|i| (first + i) as u8).collect();
        (
            list(self.for_atoms, ATOM_LENT),
            list(self.for_bonds, BOND_LENT),
        )
    }
}

/// The number and the count of an answer, and both lent lists at exit.
pub struct Walked {
    pub number: u8,
    pub count: usize,
    pub atoms: Vec<u8>,
    pub bonds: Vec<u8>,
}

/// What is found for a set: a ring in order, or the refusal of the table or of the set.
pub fn found(table: &Result<Graph, u8>, set: u64) -> Result<Round, u8> {
    match table {
        Ok(graph) => graph.round(set).ok_or(NOTRING),
        Err(refusal) => Err(*refusal),
    }
}

/// The answer for what is found: both lists are written, or neither.
pub fn answered(found: Result<Round, u8>, asked: &Asked) -> Walked {
    let (atoms, bonds) = asked.lent();
    let (refusal, round) = match found {
        Ok(round) if round.atoms.len() > atoms.len() || round.bonds.len() > bonds.len() => {
            (ROOM, round)
        }
        Ok(round) => (0, round),
        Err(refusal) => (refusal, Round::default()),
    };
    let atoms = outcome(refusal, &round.atoms, atoms);
    let bonds = outcome(refusal, &round.bonds, bonds);
    Walked {
        number: atoms.number,
        count: atoms.count,
        atoms: atoms.lent,
        bonds: bonds.lent,
    }
}
