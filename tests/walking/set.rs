//! The whole set of tables of a run, and the inputs made of them.

use crate::answers::Found;
use crate::damaged::{all_sets_of_faults, at_the_edges};
use crate::examples::examples;
use crate::frames::{cages, grown, known, long, salt, scattered, tangled};
use crate::framing::streams;
use crate::protocol::{looked_up, record_bytes, walk_bytes, Program, MOST_ROOM};
use crate::random::Random;
use crate::table::{turn_some, Table, MOST_ATOMS};
use crate::walks::walks;
use std::rc::Rc;

/// The random tables of a full run, twins not counted.
pub const TABLES: usize = 10_000;
pub const SEED: u64 = 1_975;

/// What a run is made from.
pub struct Wanted {
    pub seed: u64,
    pub tables: usize,
    /// The most records of one input.
    pub records: usize,
}

/// A table, where it comes from, what the search finds, and the rooms to be lent for it.
pub struct Case {
    pub note: &'static str,
    pub table: Table,
    found: Rc<Found>,
    rooms: Vec<Option<usize>>,
}

/// One input of a program, with the origin of each of its records.
#[derive(Default)]
pub struct Batch {
    pub name: String,
    pub notes: Vec<&'static str>,
    pub bytes: Vec<u8>,
}

/// How many of the rooms about its answers' lengths a table is tried with.
#[derive(Clone, Copy)]
enum Rooms {
    Every,
    Some(usize),
}

/// The most walks that a record asks for.
const MOST_ASKED: usize = 500;

/// Rooms above this are taken once in eight times only, since every lent word is printed.
const COMMON_ROOM: usize = 300;

/// The rooms about the answers' lengths: none, and for each list one too few, just enough and one too many.
fn rooms_about(found: &Found) -> Vec<usize> {
    let lengths = [
        found.basis.len(),
        found.all.len(),
        found.label.len(),
        found.sidecar.len(),
    ];
    let mut rooms = vec![0, 3];
    for length in lengths {
        rooms.extend([length.saturating_sub(1), length, length + 1]);
    }
    rooms.sort_unstable();
    rooms.dedup();
    rooms.retain(|&room| room <= MOST_ROOM);
    rooms
}

/// The cases made so far.
struct Set {
    random: Random,
    cases: Vec<Case>,
}

impl Set {
    fn add(&mut self, note: &'static str, table: Table, rooms: Rooms) -> Rc<Found> {
        let found = Rc::new(Found::of(&table));
        let about = rooms_about(&found);
        let rooms = match rooms {
            Rooms::Every => about,
            Rooms::Some(n) => (0..n).map(|_| self.some_room(&about)).collect(),
        };
        self.cases.push(Case {
            note,
            table,
            found: found.clone(),
            rooms: rooms.into_iter().map(Some).collect(),
        });
        found
    }

    fn some_room(&mut self, about: &[usize]) -> usize {
        loop {
            let room = self.random.pick(about);
            if room <= COMMON_ROOM || self.random.once_in(8) {
                return room;
            }
        }
    }

    /// A table and, once in so many times, its renumbered twin. Their labels must agree, or their refusals.
    fn add_with_twin(&mut self, note: &'static str, table: Table, rooms: Rooms, once_in: usize) {
        let twin = self
            .random
            .once_in(once_in)
            .then(|| table.renumbered(&mut self.random));
        let found = self.add(note, table.clone(), rooms);
        if let Some(twin) = twin {
            let found_twin = self.add("renumbered twin of the table before", twin.clone(), rooms);
            let agree = found.refusal_of_rings() == found_twin.refusal_of_rings()
                && found.label == found_twin.label;
            assert!(
                agree,
                "the search gives renumbered twins two labels: {} and {}",
                table.shown(),
                twin.shown()
            );
        }
    }

    /// Every labelled graph of up to five atoms: bonds in order, in reverse, and twice in a random order with ends turned.
    fn small_graphs(&mut self) {
        for atoms in 1..=5usize {
            for graph in small_graphs(atoms) {
                let rooms = if atoms <= 4 {
                    Rooms::Every
                } else {
                    Rooms::Some(3)
                };
                self.add(
                    "small graph",
                    Table::new(atoms as u64, &graph),
                    Rooms::Every,
                );
                let back: Vec<(u8, u8)> = graph.iter().rev().map(|&(a, b)| (b, a)).collect();
                self.add(
                    "small graph, bonds in reverse",
                    Table::new(atoms as u64, &back),
                    rooms,
                );
                for _ in 0..2 {
                    let mut mixed = graph.clone();
                    self.random.shuffle(&mut mixed);
                    turn_some(&mut mixed, &mut self.random);
                    self.add(
                        "small graph, bonds mixed",
                        Table::new(atoms as u64, &mixed),
                        rooms,
                    );
                }
            }
        }
    }

    /// A random table of a random kind; one in four keeps the order of its construction.
    fn random_table(&mut self) {
        let random = &mut self.random;
        let (note, sketch) = match random.below(22) {
            0..=2 => ("scattered bonds", scattered(random, 64)),
            3..=4 => ("dense bonds", scattered(random, 14)),
            5..=10 => ("grown molecule", grown(random)),
            11..=15 => ("cages", cages(random)),
            16..=17 => ("long chain or ring", long(random)),
            18..=19 => ("salt", salt(random)),
            _ => ("about ten basis rings", tangled(random)),
        };
        let table = if random.once_in(4) {
            sketch.table()
        } else {
            sketch.table().renumbered(random)
        };
        self.add_with_twin(note, table, Rooms::Some(1), 5);
    }

    /// Atoms without bonds, as many as are allowed and one more.
    fn atoms_without_bonds(&mut self) {
        for atoms in 1..=MOST_ATOMS + 1 {
            self.add("atoms without bonds", Table::new(atoms, &[]), Rooms::Every);
        }
    }

    /// Known frames with every room about their answers' lengths.
    fn frames_with_every_room(&mut self) {
        for sketch in known() {
            self.add_with_twin("frame", sketch.table(), Rooms::Every, 1);
        }
    }
}

/// The bond lists of all labelled graphs with so many atoms.
pub fn small_graphs(atoms: usize) -> Vec<Vec<(u8, u8)>> {
    let pairs: Vec<(u8, u8)> = (0..atoms as u8)
        .flat_map(|a| (a + 1..atoms as u8).map(move |b| (a, b)))
        .collect();
    (0..1usize << pairs.len())
        .map(|choice| {
            pairs
                .iter()
                .enumerate()
                .filter(|(k, _)| choice >> k & 1 == 1)
                .map(|(_, &pair)| pair)
                .collect()
        })
        .collect()
}

/// All cases of a run, in a fixed order.
pub fn cases(wanted: &Wanted) -> Vec<Case> {
    let mut set = Set {
        random: Random::new(wanted.seed),
        cases: Vec::new(),
    };
    for example in examples() {
        let note = "example of docs/REFERENCE.md";
        let found = set.add(note, example.table.clone(), Rooms::Every);
        set.cases.push(Case {
            note: "example without a room",
            table: example.table,
            found,
            rooms: vec![None],
        });
    }
    set.frames_with_every_room();
    set.atoms_without_bonds();
    set.small_graphs();
    let mut random = Random::new(set.random.word());
    for damaged in at_the_edges() {
        set.add_with_twin("at the edge of the limits", damaged.table, Rooms::Every, 1);
    }
    for damaged in all_sets_of_faults(&mut random) {
        set.add_with_twin("damaged", damaged.table, Rooms::Some(1), 2);
    }
    for _ in 0..wanted.tables {
        set.random_table();
    }
    set.cases
}

/// The records that a program is given for a case.
fn records_of(program: Program, case: &Case, random: &mut Random) -> Vec<Vec<u8>> {
    let (table, found) = (&case.table, &case.found);
    let rooms = case.rooms.iter();
    match program {
        Program::Ringline => vec![record_bytes(table, None)],
        Program::Answers => rooms.map(|&room| record_bytes(table, room)).collect(),
        Program::Walks => walks(table, found, random)
            .chunks(MOST_ASKED)
            .map(|asked| walk_bytes(table, asked))
            .collect(),
        Program::Lookups => rooms.map(|&room| looked_up(found, room).bytes()).collect(),
    }
}

/// All inputs of a program. Broken framing is tried on `ringline` only, and atom counts of more than a byte are not.
pub fn batches(program: Program, wanted: &Wanted) -> Vec<Batch> {
    let mut random = Random::new(wanted.seed ^ 0x1e);
    let mut batches = vec![Batch::default()];
    for case in cases(wanted) {
        if !program.takes(&case.table) {
            continue;
        }
        for bytes in records_of(program, &case, &mut random) {
            let last = &batches[batches.len() - 1];
            let full = last.bytes.len() + bytes.len() > program.most_input();
            if full || last.notes.len() == wanted.records {
                batches.push(Batch {
                    name: format!("tables {}", batches.len()),
                    ..Batch::default()
                });
            }
            let last = batches.len() - 1;
            batches[last].bytes.extend(bytes);
            batches[last].notes.push(case.note);
        }
    }
    batches[0].name = "tables 0".into();
    if program == Program::Ringline {
        for stream in streams(&mut Random::new(wanted.seed ^ 0x10)) {
            batches.push(Batch {
                name: format!("framing: {}", stream.note),
                notes: Vec::new(),
                bytes: stream.bytes,
            });
        }
    }
    batches
}
