//! Sees that the comparison can fail: each error of wrong.rs is put into the search, which then stands for a program, and the comparison
//! must report a difference for each program whose answers the error spoils.

use crate::compare::{compared, Outcome};
use crate::protocol::{Program, PROGRAMS};
use crate::set::{batches, Batch, Wanted};
use crate::wrong::{shown_by, ERRORS};
use std::time::{Duration, Instant};

/// Compares the search with each error in turn, on the inputs of a run; prints what is not seen, and says whether all is.
pub fn run(wanted: &Wanted, patience: Duration) -> Result<bool, String> {
    let start = Instant::now();
    let itself = std::env::current_exe().map_err(|fault| fault.to_string())?;
    let itself = itself.to_string_lossy().into_owned();
    let inputs = PROGRAMS.map(|program| (program, batches(program, wanted)));
    let mut seen = 0;
    let mut not_seen = 0;
    for (name, wrong) in ERRORS {
        let spoilt = |(program, _): &&(Program, Vec<Batch>)| shown_by(wrong).contains(program);
        let before = seen;
        for (program, batches) in inputs.iter().filter(spoilt) {
            let words = [&itself, "serve", program.name(), "--wrong", name];
            let command = words.map(String::from);
            let said = match compared(*program, &command, batches, patience) {
                Outcome::Differs(_) => {
                    seen += 1;
                    continue;
                }
                Outcome::Agrees { .. } => "no difference".into(),
                Outcome::Failed(fault) => fault,
            };
            not_seen += 1;
            println!("planted in {}: {name}: {said}", program.name());
        }
        if seen == before {
            not_seen += 1;
            println!("planted: {name} is seen in no program");
        }
    }
    println!(
        "planted: {} errors, seen {seen} times, {not_seen} times not; {:.1} s",
        ERRORS.len(),
        start.elapsed().as_secs_f32()
    );
    Ok(not_seen == 0)
}
