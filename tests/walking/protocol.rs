//! What the programs read and print.
//!
//! A record is field 10 (hex) with the atom count in one byte, then field 11 with the bond bytes. `ringline` prints what
//! docs/REFERENCE.md says. `answers` takes an atom count of eight bytes too, high byte first. It may find a field 1f (hex) after
//! field 11, two bytes, high byte first: the room, the number of items that every list-writing entry is lent. Without it the
//! room is ROOM_UNSAID. No room is above MOST_ROOM. After these a record may ask for walks, by a field 1e (hex) for each: a set
//! of bonds in eight bytes, high byte first, the room for atoms in one byte and the room for bonds in one.
//!
//! `answers` prints for each record a line with its number from 1, then, words parted by single spaces:
//!
//! ```text
//! check NUMBER COUNT
//! basis NUMBER COUNT and every lent word
//! assemblies NUMBER COUNT and every lent byte
//! all, reduced, smallest like basis
//! label NUMBER COUNT and all lent bytes as one hex word, absent where the room is 0
//! sidecar like label
//! ```
//!
//! and where the record asks for walks, for each of them in place of all these
//!
//! ```text
//! walk SET NUMBER COUNT and every byte lent for atoms, then / and every byte lent for bonds
//! ```
//!
//! Numbers and counts are decimal; sets, lent words and the bytes of assemblies and walks are lower-case hex without leading
//! zeros; label and sidecar have two digits a byte. Every lent element is printed after the call, the untouched rest too: word
//! i is lent as WORD_LENT + i, byte i as BYTE_LENT + i modulo 256, for walks as asked.rs has it.
//! A record cut short, or a field of another tag or length, prints the record's number and `frame` and ends the output.
//!
//! `walks` is `answers` on records that ask for walks.
//!
//! `lookups` reads lists (see `Lists`): for each record of `answers` the whole lent list of the smallest basis first and the
//! whole lent list of all rings second, both as they are after their calls. It numbers the records, and says `frame`, likewise.

use crate::answers::{field, outcome, Answer, Found};
use crate::asked::{answered, found, Asked, Walked};
use crate::lists::{lists_of, Lists, MOST_LISTS};
use crate::table::Table;
use crate::walk::Graph;
use crate::wrong::Wrong;
use std::fmt::Write;
use std::rc::Rc;

/// The most bytes that `ringline` reads; no input of `answers` is longer, if it asks for no walks.
pub const MOST_INPUT: usize = 32_768;
/// The most bytes that `answers` reads.
const MOST_WALKS: usize = 131_072;
/// One word more than all rings of a table can need.
pub const MOST_ROOM: usize = 6_548;
pub const ROOM_UNSAID: usize = 64;
const ATOMS_TAG: u8 = 0x10;
const BONDS_TAG: u8 = 0x11;
const WALK_TAG: u8 = 0x1e;
const ROOM_TAG: u8 = 0x1f;
const WORD_LENT: u64 = 0xa5a5_0000_0000_0000;
const BYTE_LENT: usize = 0xa5;

#[derive(Clone, Copy, PartialEq)]
pub enum Program {
    Ringline,
    Answers,
    Walks,
    Lookups,
}

pub const PROGRAMS: [Program; 4] = [
    Program::Ringline,
    Program::Answers,
    Program::Walks,
    Program::Lookups,
];

impl Program {
    pub fn called(name: &str) -> Option<Program> {
        PROGRAMS.into_iter().find(|program| program.name() == name)
    }

    pub fn name(self) -> &'static str {
        match self {
            Program::Ringline => "ringline",
            Program::Answers => "answers",
            Program::Walks => "walks",
            Program::Lookups => "lookups",
        }
    }

    /// The most bytes of an input with records that are whole.
    pub fn most_input(self) -> usize {
        match self {
            Program::Ringline | Program::Answers => MOST_INPUT,
            Program::Walks => MOST_WALKS,
            Program::Lookups => MOST_LISTS,
        }
    }

    /// Can a table be said to the program? To `ringline` the atom count is one byte.
    pub fn takes(self, table: &Table) -> bool {
        self != Program::Ringline || table.atoms <= u64::from(u8::MAX)
    }
}

/// A record of the input: its table, its room if it says one, the walks that it asks for, and its bytes.
pub struct Record {
    pub table: Table,
    pub room: Option<usize>,
    pub walks: Vec<Asked>,
    pub bytes: Vec<u8>,
}

/// The bytes of a record. An atom count that is no byte takes eight.
pub fn record_bytes(table: &Table, room: Option<usize>) -> Vec<u8> {
    let atoms = match u8::try_from(table.atoms) {
        Ok(byte) => vec![byte],
        Err(_) => table.atoms.to_be_bytes().to_vec(),
    };
    let mut bytes = field(ATOMS_TAG, atoms);
    bytes.extend(field(BONDS_TAG, table.bytes.clone()));
    if let Some(room) = room {
        bytes.extend(field(ROOM_TAG, (room as u16).to_be_bytes().to_vec()));
    }
    bytes
}

/// The bytes of a record that asks for walks.
pub fn walk_bytes(table: &Table, walks: &[Asked]) -> Vec<u8> {
    let fields = walks
        .iter()
        .flat_map(|asked| field(WALK_TAG, asked.bytes()));
    record_bytes(table, None)
        .into_iter()
        .chain(fields)
        .collect()
}

/// The field with a tag at the start of the input, and what follows it.
fn take_field(input: &[u8], tag: u8) -> Option<(&[u8], &[u8])> {
    let length = usize::from(u16::from_be_bytes([*input.get(1)?, *input.get(2)?]));
    let content = input.get(3..3 + length)?;
    (input[0] == tag).then_some((content, &input[3 + length..]))
}

/// The record at the start of the input, and what follows it.
fn take_record(program: Program, input: &[u8]) -> Option<(Record, &[u8])> {
    let (atoms, rest) = take_field(input, ATOMS_TAG)?;
    let atoms = match (<[u8; 1]>::try_from(atoms), <[u8; 8]>::try_from(atoms)) {
        (Ok([byte]), _) => u64::from(byte),
        (_, Ok(eight)) if program != Program::Ringline => u64::from_be_bytes(eight),
        _ => return None,
    };
    let (bonds, mut rest) = take_field(rest, BONDS_TAG)?;
    let mut room = None;
    let mut walks = Vec::new();
    if program != Program::Ringline && rest.first() == Some(&ROOM_TAG) {
        let (said, after) = take_field(rest, ROOM_TAG)?;
        let &[high, low] = said else { return None };
        room = Some(usize::from(u16::from_be_bytes([high, low])));
        rest = after;
    }
    while program != Program::Ringline && rest.first() == Some(&WALK_TAG) {
        let (asked, after) = take_field(rest, WALK_TAG)?;
        walks.push(Asked::read(asked)?);
        rest = after;
    }
    let table = Table {
        atoms,
        bytes: bonds.to_vec(),
    };
    Some((
        Record {
            table,
            room,
            walks,
            bytes: input[..input.len() - rest.len()].to_vec(),
        },
        rest,
    ))
}

/// The whole records of an input of tables, and whether something else follows them.
pub fn records(program: Program, mut input: &[u8]) -> (Vec<Record>, bool) {
    let mut records = Vec::new();
    while !input.is_empty() {
        let Some((record, rest)) = take_record(program, input) else {
            return (records, true);
        };
        records.push(record);
        input = rest;
    }
    (records, false)
}

/// How many whole records an input of a program has.
pub fn records_in(program: Program, input: &[u8]) -> usize {
    match program {
        Program::Lookups => lists_of(input).0.len(),
        _ => records(program, input).0.len(),
    }
}

/// A part of the printed text, and the place of the record that it answers. It ends with a line feed.
pub struct Piece {
    pub record: Option<usize>,
    pub text: String,
}

/// The search as the programs use it, with an error put in on demand. It keeps what it found last, since records that
/// differ only in their room follow each other.
pub struct Search {
    wrong: Option<Wrong>,
    last: Option<(Table, Rc<Found>)>,
}

impl Search {
    pub fn new(wrong: Option<Wrong>) -> Search {
        Search { wrong, last: None }
    }

    fn found(&mut self, table: &Table) -> Rc<Found> {
        if let Some((known, found)) = &self.last {
            if known == table {
                return found.clone();
            }
        }
        let mut found = Found::of(table);
        if let Some(wrong) = self.wrong {
            wrong.spoil(table, &mut found);
        }
        let found = Rc::new(found);
        self.last = Some((table.clone(), found.clone()));
        found
    }

    /// What a program prints for an input.
    pub fn text(&mut self, program: Program, input: &[u8]) -> Vec<Piece> {
        let mut pieces = match program {
            Program::Ringline => self.ringline_text(input),
            Program::Answers | Program::Walks => self.answers_text(input),
            Program::Lookups => self.lookups_text(input),
        };
        if let Some(wrong) = self.wrong {
            for piece in &mut pieces {
                piece.text = wrong.spoil_text(&piece.text);
            }
        }
        pieces
    }

    fn ringline_text(&mut self, input: &[u8]) -> Vec<Piece> {
        if input.len() > MOST_INPUT {
            return vec![Piece {
                record: None,
                text: "long\n".into(),
            }];
        }
        let (records, broken) = records(Program::Ringline, input);
        let mut pieces = vec![Piece {
            record: None,
            text: "rings 1\n".into(),
        }];
        for (place, record) in records.iter().enumerate() {
            let found = self.found(&record.table);
            let number = found.refusal_of_rings();
            let label = if number == 0 {
                hex(&found.label)
            } else {
                "-".into()
            };
            pieces.push(Piece {
                record: Some(place),
                text: format!("{} {number} {label}\n", place + 1),
            });
        }
        let n = records.len();
        let last = if broken {
            format!("{} frame\n", n + 1)
        } else {
            format!("end {n}\n")
        };
        pieces.push(Piece {
            record: None,
            text: last,
        });
        pieces
    }

    fn answers_text(&mut self, input: &[u8]) -> Vec<Piece> {
        let (records, broken) = records(Program::Answers, input);
        let lines = records.iter().map(|record| {
            if !record.walks.is_empty() {
                return self.walk_lines(record);
            }
            let room = record.room.unwrap_or(ROOM_UNSAID);
            answer_lines(&self.found(&record.table), room)
        });
        numbered(lines.collect(), broken)
    }

    /// A line for each walk that a record asks for.
    fn walk_lines(&self, record: &Record) -> String {
        let table = match record.table.refusal() {
            0 => Ok(Graph::of(&record.table)),
            refusal => Err(refusal),
        };
        let mut text = String::new();
        for asked in &record.walks {
            let walked = match self.wrong {
                Some(Wrong::Walk(astray)) => astray.walked(&table, asked),
                _ => answered(found(&table, asked.set), asked),
            };
            put_walk(&mut text, asked.set, &walked);
        }
        text
    }

    fn lookups_text(&self, input: &[u8]) -> Vec<Piece> {
        let (records, broken) = lists_of(input);
        let lines = records.iter().map(|lists| lists.lines(self.wrong));
        numbered(lines.collect(), broken)
    }
}

/// The lines of each record after its number from 1, and, where the input goes on with something else, the next number and
/// `frame`.
fn numbered(lines: Vec<String>, broken: bool) -> Vec<Piece> {
    let frame = format!("{} frame\n", lines.len() + 1);
    let number = |(place, lines): (usize, String)| Piece {
        record: Some(place),
        text: format!("{}\n{lines}", place + 1),
    };
    let mut pieces: Vec<Piece> = lines.into_iter().enumerate().map(number).collect();
    if broken {
        pieces.push(Piece {
            record: None,
            text: frame,
        });
    }
    pieces
}

/// So many words as they are lent.
fn words_lent(room: usize) -> Vec<u64> {
    (0..room as u64).map(|i| WORD_LENT + i).collect()
}

/// The lent lists of the smallest basis and of all rings after their calls.
pub fn looked_up(found: &Found, room: Option<usize>) -> Lists {
    let words = || words_lent(room.unwrap_or(ROOM_UNSAID));
    let lent = |rings: &[u64]| outcome(found.refusal_of_rings(), rings, words()).lent;
    Lists {
        first: lent(&found.smallest),
        second: lent(&found.all),
    }
}

/// The lines that `answers` prints for a table after the record's number: the whole protocol of its answers.
fn answer_lines(found: &Found, room: usize) -> String {
    let words = || words_lent(room);
    let bytes = || {
        (0..room)
            .map(|i| (BYTE_LENT + i) as u8)
            .collect::<Vec<u8>>()
    };
    let own = found.refusal;
    let rings = found.refusal_of_rings();
    let count = if own == 0 { found.basis.len() } else { 0 };
    let mut text = format!("check {own} {count}\n");
    put_items(&mut text, "basis", &outcome(own, &found.basis, words()));
    put_items(
        &mut text,
        "assemblies",
        &outcome(own, &found.assemblies, bytes()),
    );
    put_items(&mut text, "all", &outcome(rings, &found.all, words()));
    put_items(&mut text, "reduced", &outcome(own, &found.reduced, words()));
    put_items(
        &mut text,
        "smallest",
        &outcome(rings, &found.smallest, words()),
    );
    put_bytes(&mut text, "label", &outcome(rings, &found.label, bytes()));
    put_bytes(&mut text, "sidecar", &outcome(own, &found.sidecar, bytes()));
    text
}

fn put_items<T: std::fmt::LowerHex>(text: &mut String, entry: &str, answer: &Answer<T>) {
    let _ = write!(text, "{entry} {} {}", answer.number, answer.count);
    for item in &answer.lent {
        let _ = write!(text, " {item:x}");
    }
    text.push('\n');
}

fn put_bytes(text: &mut String, entry: &str, answer: &Answer<u8>) {
    let _ = write!(text, "{entry} {} {}", answer.number, answer.count);
    if !answer.lent.is_empty() {
        let _ = write!(text, " {}", hex(&answer.lent));
    }
    text.push('\n');
}

fn put_walk(text: &mut String, set: u64, walked: &Walked) {
    let _ = write!(text, "walk {set:x} {} {}", walked.number, walked.count);
    for atom in &walked.atoms {
        let _ = write!(text, " {atom:x}");
    }
    text.push_str(" /");
    for bond in &walked.bonds {
        let _ = write!(text, " {bond:x}");
    }
    text.push('\n');
}

/// Bytes in lower-case hex, two digits each.
pub fn hex(bytes: &[u8]) -> String {
    bytes.iter().map(|byte| format!("{byte:02x}")).collect()
}
