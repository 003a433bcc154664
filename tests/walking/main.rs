//! An independent search by walking, and the comparison of its answers with what the programs print.
//!
//! Built by `rustc -O --edition 2021 -o walking tests/walking/main.rs`. Used as
//!
//! ```text
//! walking self [--seed N]                                  tests the search itself
//! walking planted [OPTIONS]                                tests the comparison: it reports every error put into the search
//! walking compare PROGRAM [OPTIONS] -- COMMAND ARGUMENT..  compares a program, started by the command for each input
//! walking make DIRECTORY [SEED] [OPTIONS]                  writes the inputs (.in) and what is expected (.out)
//! walking serve PROGRAM [--wrong NAME]                     answers like the program, from the search
//! ```
//!
//! PROGRAM is `ringline`, `answers`, `walks` or `lookups`. Options: `--seed N`, `--tables N` (random tables), `--records N` (the most
//! records of one input), `--patience N` (seconds that one input may take). The exit status is 1 if something differs or
//! fails, 2 if the arguments are not understood.

mod answers;
mod asked;
mod astray;
mod compare;
mod damaged;
mod examples;
mod frames;
mod framing;
mod lists;
mod planted;
mod protocol;
mod random;
mod round;
mod roundcheck;
mod selfcheck;
mod set;
mod sketch;
mod table;
mod walk;
mod walks;
mod wrong;

use protocol::{Program, Search, PROGRAMS};
use set::Wanted;
use std::io::{Read, Write};
use std::process::ExitCode;
use std::time::Duration;
use wrong::{Wrong, ERRORS};

/// The arguments after the mode.
struct Arguments {
    plain: Vec<String>,
    command: Vec<String>,
    wanted: Wanted,
    patience: Duration,
    wrong: Option<Wrong>,
}

fn arguments(given: &[String]) -> Result<Arguments, String> {
    let wanted = Wanted {
        seed: set::SEED,
        tables: set::TABLES,
        records: usize::MAX,
    };
    let mut read = Arguments {
        plain: Vec::new(),
        command: Vec::new(),
        wanted,
        patience: Duration::from_secs(600),
        wrong: None,
    };
    let mut rest = given.iter();
    while let Some(word) = rest.next() {
        if word == "--" {
            read.command = rest.cloned().collect();
            break;
        }
        if !word.starts_with("--") {
            read.plain.push(word.clone());
            continue;
        }
        let value = rest.next().ok_or(format!("{word} wants a value"))?;
        match word.as_str() {
            "--seed" => read.wanted.seed = number(value)?,
            "--tables" => read.wanted.tables = number(value)? as usize,
            "--records" => read.wanted.records = (number(value)? as usize).max(1),
            "--patience" => read.patience = Duration::from_secs(number(value)?),
            "--wrong" => read.wrong = Some(error_called(value)?),
            _ => return Err(format!("{word} is no option")),
        }
    }
    Ok(read)
}

fn number(text: &str) -> Result<u64, String> {
    text.parse().map_err(|_| format!("{text} is no number"))
}

fn error_called(name: &str) -> Result<Wrong, String> {
    let names = || ERRORS.map(|(name, _)| name).join(" ");
    ERRORS
        .iter()
        .find(|(known, _)| *known == name)
        .map(|&(_, wrong)| wrong)
        .ok_or(format!("the errors are {}", names()))
}

fn program_called(read: &Arguments) -> Result<Program, String> {
    let names = || PROGRAMS.map(Program::name).join(", ");
    let name = read
        .plain
        .first()
        .ok_or(format!("which program, {}?", names()))?;
    Program::called(name).ok_or(format!("{name} is no program of {}", names()))
}

/// Does what a mode says; false if something differs or fails.
fn run(mode: &str, mut read: Arguments) -> Result<bool, String> {
    match mode {
        "self" => Ok(selfcheck::run(read.wanted.seed)),
        "planted" => planted::run(&read.wanted, read.patience),
        "compare" => {
            let program = program_called(&read)?;
            if read.command.is_empty() {
                return Err("after -- stands the command that starts the program".into());
            }
            Ok(compare::compare(
                program,
                &read.command,
                &read.wanted,
                read.patience,
            ))
        }
        "make" => {
            let directory = read.plain.first().cloned().ok_or("which directory?")?;
            if let Some(seed) = read.plain.get(1) {
                read.wanted.seed = number(seed)?;
            }
            make(&directory, &read.wanted).map_err(|fault| format!("{directory}: {fault}"))
        }
        "serve" => serve(program_called(&read)?, read.wrong).map_err(|fault| fault.to_string()),
        _ => Err(format!("{mode} is no mode")),
    }
}

/// Writes all inputs and what each program is expected to print.
fn make(directory: &str, wanted: &Wanted) -> std::io::Result<bool> {
    std::fs::create_dir_all(directory)?;
    for program in PROGRAMS {
        let mut search = Search::new(None);
        let batches = set::batches(program, wanted);
        for (place, batch) in batches.iter().enumerate() {
            let name = format!("{directory}/{}-{place:04}", program.name());
            std::fs::write(name.clone() + ".in", &batch.bytes)?;
            let text: String = search
                .text(program, &batch.bytes)
                .into_iter()
                .map(|piece| piece.text)
                .collect();
            std::fs::write(name + ".out", text)?;
        }
        println!("{}: {} inputs", program.name(), batches.len());
    }
    Ok(true)
}

/// Answers standard input as a program does.
fn serve(program: Program, wrong: Option<Wrong>) -> std::io::Result<bool> {
    let mut input = Vec::new();
    std::io::stdin().read_to_end(&mut input)?;
    let text: String = Search::new(wrong)
        .text(program, &input)
        .into_iter()
        .map(|piece| piece.text)
        .collect();
    std::io::stdout().write_all(text.as_bytes())?;
    Ok(true)
}

fn main() -> ExitCode {
    let given: Vec<String> = std::env::args().skip(1).collect();
    let mode = given.first().map_or("", |mode| mode.as_str());
    match arguments(given.get(1..).unwrap_or(&[])).and_then(|read| run(mode, read)) {
        Ok(true) => ExitCode::SUCCESS,
        Ok(false) => ExitCode::from(1),
        Err(fault) => {
            eprintln!("walking: {fault}");
            ExitCode::from(2)
        }
    }
}
