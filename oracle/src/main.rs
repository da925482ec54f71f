//! The oracle: runs scripts over the Rust that this repository is a port of, makes scripts, and compares what two sides print.
//!
//!     oracle run < SCRIPT                      what the original does
//!     oracle generate SEED COUNT KIND..        a script of COUNT random cases
//!     oracle chosen KIND..                     a script of the chosen cases
//!     oracle compare PORT SEED COUNT KIND..    both sides over the chosen cases and COUNT random ones; PORT is the port's program
//!     oracle check SCRIPT OUTPUT               the original over a script, compared with what the port printed for it
//!     oracle list PORT BY_HAND FOLDER          writes the list of cases, those of BY_HAND first, with its output into FOLDER
//!
//! Without KIND.. the cases are of all kinds.

mod compare;
mod entries;
mod generate;
mod host;
mod places;
mod print;
mod reasons;
mod run;
mod script;
mod sides;

use std::error::Error;
use std::fs;
use std::io::{self, BufWriter, Read, Write};
use std::path::Path;
use std::process::ExitCode;

use generate::Kind;

type Result<T> = std::result::Result<T, Box<dyn Error>>;

fn main() -> Result<ExitCode> {
    let words: Vec<String> = std::env::args().skip(1).collect();
    let words: Vec<&str> = words.iter().map(String::as_str).collect();
    let mut agree = true;
    match words[..] {
        ["run"] => {
            let mut out = BufWriter::new(io::stdout().lock());
            run::run(&standard_input()?, &mut out)?;
            out.flush()?;
        }
        ["generate", seed, count, ref names @ ..] => {
            let places = 0..script::number(count)?;
            put(&generate::random_cases(script::number(seed)?, places, &kinds(names)?))?;
        }
        ["chosen", ref names @ ..] => put(&generate::chosen_cases(&kinds(names)?))?,
        ["compare", port, seed, count, ref names @ ..] => {
            let (seed, count) = (script::number(seed)?, script::number(count)?);
            agree = sides::compare(Path::new(port), seed, count, &kinds(names)?)?;
        }
        ["check", script, output] => agree = sides::check(&fs::read_to_string(script)?, &fs::read_to_string(output)?)?,
        ["list", port, by_hand, folder] => sides::list(Path::new(port), &fs::read_to_string(by_hand)?, Path::new(folder))?,
        _ => return Err("the commands are run, generate, chosen, compare, check and list".into()),
    }
    Ok(if agree { ExitCode::SUCCESS } else { ExitCode::FAILURE })
}

fn put(text: &str) -> io::Result<()> {
    io::stdout().write_all(text.as_bytes())
}

fn standard_input() -> io::Result<Vec<u8>> {
    let mut bytes = Vec::new();
    io::stdin().read_to_end(&mut bytes)?;
    Ok(bytes)
}

/// The kinds of these names; without a name all.
fn kinds(names: &[&str]) -> Result<Vec<&'static Kind>> {
    if names.is_empty() {
        return Ok(generate::KINDS.iter().collect());
    }
    names.iter().map(|name| generate::kind(name).ok_or(format!("no kind is named {name}").into())).collect()
}
