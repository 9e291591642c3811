//! The Rust half of the comparison: asks moxcms's own text many questions, and writes them and what the library must
//! answer as a transcript of groat. README.md has the commands.

mod ask;
mod floats;
mod generator;
mod known;
mod routines;
mod rules;
mod sessions;
mod tables;
mod transcript;

use std::process::ExitCode;
use transcript::Transcript;

const USAGE: &str = "\
oracle CASES SEED    write a transcript of about CASES answers
oracle --small SEED  write a short one, which has every kind of request and table
oracle --known       compare with answers that are known";

/// About how many answers the short one has.
const SMALL: u64 = 16_000;

fn main() -> ExitCode {
    ask::quiet_panics();
    let words: Vec<String> = std::env::args().skip(1).collect();
    let words: Vec<&str> = words.iter().map(String::as_str).collect();
    match run(&words) {
        Ok(true) => ExitCode::SUCCESS,
        Ok(false) => ExitCode::FAILURE,
        Err(trouble) => {
            eprintln!("oracle: {trouble}");
            ExitCode::FAILURE
        }
    }
}

fn run(words: &[&str]) -> Result<bool, String> {
    match *words {
        ["--known"] => return Ok(known::known()),
        ["--small", seed] => write(true, SMALL, number(seed)?),
        [cases, seed] => write(false, number(cases)?, number(seed)?),
        _ => return Err(format!("usage:\n{USAGE}")),
    }
    Ok(true)
}

fn number(word: &str) -> Result<u64, String> {
    word.parse().map_err(|_| format!("{word} is not a number"))
}

fn write(brief: bool, answers: u64, seed: u64) {
    let mut t = Transcript::begin(brief);
    let build = if cfg!(fused) { "fused" } else { "plain" };
    let words = if brief { "--small".into() } else { answers.to_string() };
    t.comment(&format!("What the Rust of moxcms 0.9.1 answers, {build} build, to {words} {seed} (oracle/README.md)."));
    t.comment("`!N` in a list, and `refused N`, are the refusals of document 01; docs/GROAT.md is the language.");
    sessions::write_all(&mut t, answers, seed);
    t.end();
}
