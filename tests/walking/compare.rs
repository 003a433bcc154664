//! Starts a program on each input and compares what it prints with what the search says.

use crate::lists::lists_of;
use crate::protocol::{hex, records, records_in, Piece, Program, Search};
use crate::set::{batches, Batch, Wanted};
use std::io::{Read, Write};
use std::process::{Command, ExitStatus, Stdio};
use std::sync::mpsc::channel;
use std::thread;
use std::time::{Duration, Instant};

/// What a run of the program gave.
struct Ran {
    output: Vec<u8>,
    /// What it said on standard error.
    said: String,
    status: ExitStatus,
}

/// The exit status of `./run ringline` where the output does not end in `end` and a number.
const NOT_WHOLE: i32 = 3;

/// What a comparison found: what was compared, or the first fault.
pub enum Outcome {
    Agrees {
        records: usize,
        printed: usize,
    },
    /// A line of the output is another one than the search's.
    Differs(String),
    /// The program did not start, run to its end, or end well.
    Failed(String),
}

/// Compares the program on all inputs; prints the first difference, or what was compared, and says whether all agree.
pub fn compare(program: Program, command: &[String], wanted: &Wanted, patience: Duration) -> bool {
    let start = Instant::now();
    let batches = batches(program, wanted);
    let made = start.elapsed();
    match compared(program, command, &batches, patience) {
        Outcome::Agrees { records, printed } => println!(
            "{} agrees: {} inputs, {records} records, {printed} bytes printed, seed {}; {:.1} s, {:.1} s of it to make the tables",
            program.name(),
            batches.len(),
            wanted.seed,
            start.elapsed().as_secs_f32(),
            made.as_secs_f32()
        ),
        Outcome::Differs(fault) | Outcome::Failed(fault) => {
            println!("{fault}");
            return false;
        }
    }
    true
}

/// Compares the program on inputs, up to the first fault.
pub fn compared(
    program: Program,
    command: &[String],
    batches: &[Batch],
    patience: Duration,
) -> Outcome {
    let mut search = Search::new(None);
    let mut count = 0;
    let mut printed = 0;
    for batch in batches {
        let failed = |fault: String| {
            let name = program.name();
            Outcome::Failed(format!("{name}, input \"{}\": {fault}", batch.name))
        };
        let ran = run(command, &batch.bytes, patience, || {
            search.text(program, &batch.bytes)
        });
        let (ran, expected) = match ran {
            Ok(both) => both,
            Err(fault) => return failed(fault),
        };
        let whole = expected
            .last()
            .is_some_and(|piece| piece.text.starts_with("end "));
        let well = |code| code == 0 || program == Program::Ringline && code == NOT_WHOLE && !whole;
        if ran.status.code().is_some_and(|code| !well(code)) {
            return failed(format!("the program failed, {}; {}", ran.status, ran.said));
        }
        if let Some(difference) = difference(program, batch, &expected, &ran.output) {
            let ended = format!("  the program ended with {}", ran.status);
            return Outcome::Differs(difference + "\n" + &ended);
        }
        if ran.status.code().is_none() {
            return failed(format!(
                "the text agrees, but the program ended with {}",
                ran.status
            ));
        }
        count += records_in(program, &batch.bytes);
        printed += ran.output.len();
    }
    Outcome::Agrees {
        records: count,
        printed,
    }
}

/// Runs the command on an input, and meanwhile works out what it should print.
fn run<T>(
    command: &[String],
    input: &[u8],
    patience: Duration,
    meanwhile: impl FnOnce() -> T,
) -> Result<(Ran, T), String> {
    let mut child = Command::new(&command[0])
        .args(&command[1..])
        .stdin(Stdio::piped())
        .stdout(Stdio::piped())
        .stderr(Stdio::piped())
        .spawn()
        .map_err(|fault| format!("{} does not start: {fault}", command[0]))?;
    let pipes = (child.stdin.take(), child.stdout.take(), child.stderr.take());
    let (Some(mut to), Some(mut from), Some(mut aside)) = pipes else {
        return Err("the program has no pipes".into());
    };
    let said = thread::spawn(move || {
        let mut said = Vec::new();
        drop(aside.read_to_end(&mut said));
        String::from_utf8_lossy(&said).trim_end().to_string()
    });
    let input = input.to_vec();
    // A program may stop reading early, so a broken pipe is no fault of its own.
    let writer = thread::spawn(move || drop(to.write_all(&input)));
    let (tell, told) = channel();
    thread::spawn(move || {
        let mut output = Vec::new();
        let read = from.read_to_end(&mut output);
        drop(tell.send(read.map(|_| output)));
    });
    let expected = meanwhile();
    let Ok(read) = told.recv_timeout(patience) else {
        drop(child.kill());
        drop(child.wait());
        return Err(format!(
            "no end of the output within {} s",
            patience.as_secs()
        ));
    };
    let output = read.map_err(|fault| format!("the output cannot be read: {fault}"))?;
    let status = child
        .wait()
        .map_err(|fault| format!("no exit status: {fault}"))?;
    drop(writer.join());
    let said = said.join().unwrap_or_default();
    let ran = Ran {
        output,
        said,
        status,
    };
    Ok((ran, expected))
}

/// The first line in which the output differs from what is expected, with the table that shows it.
fn difference(
    program: Program,
    batch: &Batch,
    expected: &[Piece],
    output: &[u8],
) -> Option<String> {
    let output = String::from_utf8_lossy(output);
    let mut got = output.split_inclusive('\n');
    let mut number = 0;
    for piece in expected {
        for line in piece.text.split_inclusive('\n') {
            number += 1;
            let other = got.next().unwrap_or("");
            if line != other {
                return Some(described(program, batch, piece.record, number, line, other));
            }
        }
    }
    got.next()
        .map(|more| described(program, batch, None, number + 1, "", more))
}

fn described(
    program: Program,
    batch: &Batch,
    record: Option<usize>,
    number: usize,
    line: &str,
    other: &str,
) -> String {
    let mut text = format!(
        "{}, input \"{}\", line {number} of the output differs\n",
        program.name(),
        batch.name
    );
    if let Some(place) = record {
        let note = batch.notes.get(place).copied().unwrap_or("of this input");
        text += &format!("  record   {} ({note})\n", place + 1);
        text += &shown(program, &batch.bytes, place);
    }
    if record.is_none() && batch.bytes.len() <= 200 {
        text += &format!("  input    {}\n", hex(&batch.bytes));
    }
    if program != Program::Ringline {
        text += &format!(
            "  entry    {}\n",
            line.split_whitespace().next().unwrap_or("none")
        );
    }
    let same = line
        .chars()
        .zip(other.chars())
        .take_while(|(a, b)| a == b)
        .count();
    text += &format!(
        "  differs  from character {}\n  expected {}\n  got      {}",
        same + 1,
        near(line, same),
        near(other, same)
    );
    text
}

/// A record of an input as a person reads it.
fn shown(program: Program, input: &[u8], place: usize) -> String {
    let mut text = String::new();
    let mut bytes;
    if program == Program::Lookups {
        let lists = &lists_of(input).0[place];
        let (first, second) = (lists.first.len(), lists.second.len());
        text += &format!("  lists    of {first} and {second} words\n");
        bytes = hex(&lists.bytes());
    } else {
        let record = &records(program, input).0[place];
        let table = &record.table;
        text += &format!("  atoms    {}\n  bonds    {}\n", table.atoms, table.shown());
        if program == Program::Answers {
            let room = record
                .room
                .map_or("not said".into(), |room| room.to_string());
            text += &format!("  room     {room}\n");
        }
        bytes = hex(&record.bytes);
    }
    if bytes.len() > 400 {
        bytes.truncate(400);
        bytes += "..";
    }
    text + &format!("  bytes    {bytes}\n")
}

/// A line shown about a place: its start, and some characters before and after the place.
fn near(line: &str, place: usize) -> String {
    let characters: Vec<char> = line.chars().collect();
    let shown = |from: usize, to: usize| {
        characters[from.min(characters.len())..to.min(characters.len())]
            .iter()
            .collect::<String>()
    };
    let mut text = if place <= 80 {
        shown(0, place + 80)
    } else {
        shown(0, 20) + " .. " + &shown(place - 40, place + 80)
    };
    if characters.len() > place + 80 {
        text += " ..";
    }
    if line.is_empty() {
        text = "nothing".into();
    }
    text.escape_default().to_string()
}
