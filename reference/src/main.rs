//! A plain reference implementation of the services of document 01, and of sections 1 to 3 of
//! document 02: the reports, the system's names, HAVE name by name.  Section 4 changes no answer:
//! GETMAIN here tries each multiple of 8 in turn, so that a shorter search can be held to it.  Of
//! section 5 the name area is here, with names as long as before.
//!
//!     reference                            answer the job script on standard input
//!     reference quick                      the same with a short walk in GETMAIN, to be timed
//!     reference generate SEED KIND COUNT   write a script of about COUNT requests and reports
//!     reference kinds                      write the kinds of scripts
//!     reference coverage                   count what the script on standard input reaches
//!     reference origin K                   say which line of it makes line K of the answers

mod admission;
mod control;
mod coverage;
mod ending;
mod generate;
mod held;
mod name_area;
mod names;
mod numbers;
mod poke;
mod printer;
mod quick;
mod random;
mod reports;
mod request;
mod rings;
mod runner;
mod script;
mod services;
mod sound;
mod tables;
#[cfg(test)]
mod tests;
mod words;

use std::env;
use std::io::{self, BufRead, Write};
use std::process;

use self::runner::Runner;

fn main() {
    let words: Vec<String> = env::args().skip(1).collect();
    let words: Vec<&str> = words.iter().map(|word| word.as_str()).collect();
    match act(&words) {
        Ok(true) => {}
        Ok(false) => {
            eprintln!(
                "usage: reference [quick | generate SEED KIND COUNT | kinds | coverage | origin K]"
            );
            process::exit(2);
        }
        Err(error) => {
            eprintln!("reference: {}", error);
            process::exit(1);
        }
    }
}

fn act(words: &[&str]) -> io::Result<bool> {
    let mut input = io::BufReader::with_capacity(1 << 16, io::stdin());
    let mut output = io::BufWriter::with_capacity(1 << 16, io::stdout());
    match *words {
        [] => runner::run(Runner::new(), &mut input, &mut output)?,
        ["quick"] => runner::run(Runner::quick(), &mut input, &mut output)?,
        ["kinds"] => generate::KINDS.iter().try_for_each(|kind| writeln!(output, "{}", kind))?,
        ["coverage"] => coverage::report(&mut input, &mut output)?,
        ["generate", seed, kind, count] => match (seed.parse(), count.parse()) {
            (Ok(seed), Ok(count)) => return generate::generate(seed, kind, count, &mut output),
            _ => return Ok(false),
        },
        ["origin", place] => match place.parse() {
            Ok(place) => origin(&mut input, &mut output, place)?,
            Err(_) => return Ok(false),
        },
        _ => return Ok(false),
    }
    output.flush()?;
    Ok(true)
}

/// The number and the text of the line that makes the answers' line `place`.
fn origin<R: BufRead, W: Write>(input: &mut R, output: &mut W, place: usize) -> io::Result<()> {
    let mut runner = Runner::new();
    let mut lines = 0;
    runner::each_line(input, |line| {
        let outcome = runner.take(line);
        let mut out = Vec::new();
        runner.print(&outcome, &mut out);
        let before = lines;
        lines += out.iter().filter(|byte| **byte == b'\n').count();
        if before < place && place <= lines {
            write!(output, "{} ", runner.line)?;
            output.write_all(line)?;
            writeln!(output)?;
        }
        Ok(())
    })
}
