//! Both sides over the same script: many fresh cases to compare, and the list that the repository keeps.

use std::error::Error;
use std::fs;
use std::io::{self, Write};
use std::path::Path;
use std::process::{Command, Stdio};

use crate::compare::{self, Case, Judged, Tally, Verdict};
use crate::generate::{self, Kind};
use crate::run;

type Result<T> = std::result::Result<T, Box<dyn Error>>;

/// The cases that are run at once.
const AT_ONCE: u64 = 5_000;
/// The random cases of the list: their seed, and how many of each kind.
const LIST_SEED: u64 = 7;
const LIST_EACH: u64 = 60;

fn original(script: &str) -> io::Result<String> {
    let mut out = Vec::new();
    run::run(script.as_bytes(), &mut out)?;
    Ok(String::from_utf8(out).expect("what is printed is text"))
}

/// What the port's program prints.
fn port(program: &Path, script: &str) -> Result<String> {
    let mut child = Command::new(program).stdin(Stdio::piped()).stdout(Stdio::piped()).spawn()?;
    let mut input = child.stdin.take().expect("the input is piped");
    let script = script.to_owned();
    let writer = std::thread::spawn(move || input.write_all(script.as_bytes()));
    let output = child.wait_with_output()?;
    // A program that ends early does not take the whole script; its missing cases are shown.
    let _ = writer.join();
    Ok(String::from_utf8_lossy(&output.stdout).into_owned())
}

/// Compares the chosen cases and `count` random ones, and prints the differences and what was counted. Answers whether the
/// sides agree.
pub fn compare(program: &Path, seed: u64, count: u64, kinds: &[&Kind]) -> Result<bool> {
    let mut tally = Tally::default();
    compare_script(program, &generate::chosen_cases(kinds), &mut tally)?;
    let mut done = 0;
    while done < count {
        let now = AT_ONCE.min(count - done);
        compare_script(program, &generate::random_cases(seed, done..done + now, kinds), &mut tally)?;
        done += now;
    }
    print!("{}", tally.text());
    Ok(tally.different == 0)
}

/// Compares the original over a script with what the port printed for it.
pub fn check(script: &str, port: &str) -> Result<bool> {
    let mut tally = Tally::default();
    compare_printed(script, &original(script)?, port, &mut tally)?;
    print!("{}", tally.text());
    Ok(tally.different == 0)
}

fn compare_script(program: &Path, script: &str, tally: &mut Tally) -> Result<()> {
    compare_printed(script, &original(script)?, &port(program, script)?, tally)
}

fn compare_printed(script: &str, original: &str, port: &str, tally: &mut Tally) -> Result<()> {
    let cases = compare::cases(script)?;
    compare::judge(&cases, original, port, |case, judged| {
        count(case, judged, tally);
    });
    Ok(())
}

/// Counts a case's lines, and shows the case if some differ. Answers its lines, if they could be laid side by side.
fn count<'a>(case: &Case, judged: std::result::Result<Vec<Judged<'a>>, String>, tally: &mut Tally) -> Option<Vec<Judged<'a>>> {
    tally.cases += 1;
    match judged {
        Ok(judged) => {
            judged.iter().for_each(|line| tally.add(&line.verdict));
            if judged.iter().any(|line| matches!(line.verdict, Verdict::Different)) {
                show(case, &judged);
            }
            Some(judged)
        }
        Err(reason) => {
            tally.different += 1;
            println!("{}\n  {reason}\n", text_of(case));
            None
        }
    }
}

fn text_of(case: &Case) -> String {
    let lines: String = case.lines.iter().map(|(text, _)| format!("\n{text}")).collect();
    format!("{}{lines}\nend", case.head)
}

fn show(case: &Case, judged: &[Judged]) {
    println!("{}", text_of(case));
    for line in judged.iter().filter(|line| matches!(line.verdict, Verdict::Different)) {
        println!("  original {}\n  port     {}", line.original, line.port);
        if let Some(places) = line.places {
            println!("         {places}");
        }
    }
    println!();
}

/// Writes the list of cases into a folder: the script as `stdin`, and as `stdout` what the program must print. That is the
/// original's line wherever the two agree, the port's second lines, and the port's line where a difference is listed or the
/// original was not compared; there a comment in the script has the original's.
pub fn list(program: &Path, by_hand: &str, folder: &Path) -> Result<()> {
    let kinds: Vec<&Kind> = generate::KINDS.iter().filter(|kind| kind.is_listed()).collect();
    let random = generate::random_cases(LIST_SEED, 0..LIST_EACH * kinds.len() as u64, &kinds);
    let script = by_hand.to_owned() + &generate::chosen_cases(&kinds) + &random;
    // The comments move the numbers of lines, which are printed for those that cannot be read: so both sides run it again.
    let (input, _) = list_of(program, &script, &mut Tally::default())?;
    let mut tally = Tally::default();
    let (_, output) = list_of(program, &input, &mut tally)?;
    print!("{}", tally.text());
    fs::write(folder.join("stdin"), input)?;
    fs::write(folder.join("stdout"), output)?;
    Ok(())
}

/// A script with its comments, and what must be printed for it.
fn list_of(program: &Path, script: &str, tally: &mut Tally) -> Result<(String, String)> {
    let (original, port) = (original(script)?, port(program, script)?);
    let cases = compare::cases(script)?;
    let mut input = String::new();
    let mut output = String::new();
    compare::judge(&cases, &original, &port, |case, judged| {
        if let Some(judged) = count(case, judged, tally) {
            input += &listed_input(case, &judged);
            output += &listed_output(case, &judged);
        }
    });
    if tally.different > 0 {
        return Err("the list is not written, since the sides differ".into());
    }
    Ok((input, output))
}

fn listed_input(case: &Case, judged: &[Judged]) -> String {
    let mut text = format!("{}\n", case.head);
    for (place, (line, _)) in case.lines.iter().enumerate() {
        for judged in judged.iter().filter(|judged| judged.place == Some(place)) {
            match judged.verdict {
                Verdict::Listed(name) => text += &format!("# listed difference, {name}. The Rust: {}\n", judged.original),
                Verdict::NotCompared(name) => text += &format!("# not compared, {name}. The Rust: {}\n", judged.original),
                Verdict::Same | Verdict::Different => (),
            }
        }
        text += &format!("{line}\n");
    }
    text + "end\n"
}

fn listed_output(case: &Case, judged: &[Judged]) -> String {
    let mut text = format!("{}\n", case.head);
    for line in judged {
        let first = if matches!(line.verdict, Verdict::Same) { line.original } else { line.port };
        if first.is_empty() {
            continue;
        }
        text += &format!("{first}\n");
        if let Some(places) = line.places {
            text += &format!("{places}\n");
        }
    }
    text + "end\n"
}
