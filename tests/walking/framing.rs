//! Inputs for `ringline` whose framing is broken or at the edge: cut records, other tags, wrong lengths, long input.

use crate::answers::field;
use crate::protocol::{record_bytes, MOST_INPUT};
use crate::random::Random;
use crate::sketch::Sketch;
use crate::table::Table;

/// How many inputs are spoilt at random.
const SPOILT: usize = 120;

/// An input and what is odd about it.
pub struct Stream {
    pub note: String,
    pub bytes: Vec<u8>,
}

/// Two records, the second refused: docs/REFERENCE.md's example of `ringline`.
pub fn example() -> Vec<u8> {
    let triangle = record_bytes(&Sketch::ring(3).table(), None);
    [triangle, record_bytes(&Table::new(2, &[(0, 0)]), None)].concat()
}

pub fn streams(random: &mut Random) -> Vec<Stream> {
    let mut made = vec![
        stream("empty", Vec::new()),
        stream("docs/REFERENCE.md's example", example()),
    ];
    cut(&mut made);
    other_fields(&mut made);
    about_the_limit(&mut made);
    for number in 0..SPOILT {
        made.push(stream(
            &format!("spoilt at random, number {number}"),
            spoilt(random),
        ));
    }
    made
}

fn stream(note: &str, bytes: Vec<u8>) -> Stream {
    Stream {
        note: note.into(),
        bytes,
    }
}

/// The example cut at every place, and with bytes after its end.
fn cut(made: &mut Vec<Stream>) {
    let whole = example();
    for length in 1..whole.len() {
        made.push(stream(
            &format!("cut to {length} bytes"),
            whole[..length].to_vec(),
        ));
    }
    for tail in [
        &[0x00][..],
        &[0x10],
        &[0x10, 0, 1],
        &[0x10, 0, 1, 5],
        &[0x10, 0, 1, 5, 0x11, 0],
        &[0xff; 9],
    ] {
        made.push(stream(
            &format!("followed by {tail:02x?}"),
            [&whole, tail].concat(),
        ));
    }
}

/// Records whose first or second field has another tag or length, alone, after a good record and before one.
fn other_fields(made: &mut Vec<Stream>) {
    let atoms = |length: usize| field(0x10, vec![3; length]);
    let bonds = || field(0x11, vec![0, 1, 1, 2]);
    let mut records: Vec<(String, Vec<u8>)> = Vec::new();
    for tag in [0x00, 0x01, 0x0f, 0x11, 0x12, 0x20, 0x90, 0xff] {
        records.push((
            format!("first tag {tag:02x}"),
            [field(tag, vec![3]), bonds()].concat(),
        ));
    }
    for tag in [0x00, 0x01, 0x10, 0x12, 0x91, 0xff] {
        records.push((
            format!("second tag {tag:02x}"),
            [atoms(1), field(tag, vec![0, 1])].concat(),
        ));
    }
    for length in [0, 2, 3, 17, 256, 257] {
        records.push((
            format!("field 10 of {length} bytes"),
            [atoms(length), bonds()].concat(),
        ));
    }
    records.push((
        "fields the other way round".into(),
        [bonds(), atoms(1)].concat(),
    ));
    records.push((
        "field 10 twice".into(),
        [atoms(1), atoms(1), bonds()].concat(),
    ));
    records.push((
        "field 11 twice".into(),
        [atoms(1), bonds(), bonds()].concat(),
    ));
    records.push((
        "field 11 without bonds".into(),
        [atoms(1), field(0x11, Vec::new())].concat(),
    ));
    records.push((
        "length with its bytes swapped".into(),
        vec![0x10, 1, 0, 3, 0x11, 2, 0, 0, 1],
    ));
    records.push((
        "field 11 longer than the input".into(),
        [atoms(1), vec![0x11, 0xff, 0xff, 0, 1]].concat(),
    ));
    for (note, record) in records {
        made.push(stream(&note, record.clone()));
        made.push(stream(
            &format!("{note}, after good records"),
            [example(), record.clone()].concat(),
        ));
        made.push(stream(
            &format!("{note}, before good records"),
            [record, example()].concat(),
        ));
    }
}

/// Good records filled up to a length by a last record with very many bonds.
fn filled(length: usize) -> Vec<u8> {
    let mut bytes = example();
    let frame = record_bytes(&Table::new(3, &[]), None).len();
    let rest = length - bytes.len() - frame;
    bytes.extend(record_bytes(
        &Table {
            atoms: 3,
            bytes: vec![1; rest],
        },
        None,
    ));
    bytes
}

/// Short records, one after the other, up to a length; the last may be cut.
fn repeated(length: usize) -> Vec<u8> {
    example().into_iter().cycle().take(length).collect()
}

fn about_the_limit(made: &mut Vec<Stream>) {
    for length in [MOST_INPUT - 1, MOST_INPUT, MOST_INPUT + 1, MOST_INPUT + 2] {
        made.push(stream(
            &format!("{length} bytes, the last record long"),
            filled(length),
        ));
        made.push(stream(
            &format!("{length} bytes of short records"),
            repeated(length),
        ));
        made.push(stream(&format!("{length} bytes of 00"), vec![0; length]));
    }
    let whole = example().len();
    let most = MOST_INPUT / whole * whole;
    made.push(stream("as many short records as fit", repeated(most)));
    made.push(stream("one short record too many", repeated(most + whole)));
    let smallest = record_bytes(&Table::new(1, &[]), None);
    let many: Vec<u8> = smallest
        .iter()
        .copied()
        .cycle()
        .take(MOST_INPUT / smallest.len() * smallest.len())
        .collect();
    made.push(stream("as many of the shortest records as fit", many));
    for length in [40_000, 65_535, 65_536, 65_537, 98_304, 200_000] {
        made.push(stream(&format!("{length} bytes"), repeated(length)));
    }
}

/// A few good records with one or two bytes changed, left out or put in.
fn spoilt(random: &mut Random) -> Vec<u8> {
    let mut bytes = Vec::new();
    for _ in 0..random.within(1, 4) {
        bytes.extend(record_bytes(&crate::frames::grown(random).table(), None));
    }
    for _ in 0..random.within(1, 2) {
        let at = random.below(bytes.len());
        let any = random.byte();
        let byte = random.pick(&[0, 1, 2, 0x10, 0x11, 0x12, any]);
        match random.below(3) {
            0 => bytes[at] = byte,
            1 => bytes.insert(at, byte),
            _ => {
                bytes.remove(at);
            }
        }
    }
    bytes
}
