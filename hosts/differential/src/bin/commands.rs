//! Writes a script of commands and the answers that the independent version of document 01 expects.

use std::env;
use std::error::Error;
use std::fs;
use std::process::ExitCode;

use gurvazze_differential::script::Script;
use gurvazze_differential::session::Session;

const USAGE: &str = "usage: commands SEED LINES SCRIPT ANSWERS, or commands SEED LINES BYTE, or commands SCRIPT ANSWERS";

fn main() -> ExitCode {
    let arguments: Vec<String> = env::args().skip(1).collect();
    let arguments: Vec<&str> = arguments.iter().map(String::as_str).collect();
    let done = match arguments[..] {
        [seed, lines, script, answers] => write(seed, lines, script, answers),
        [seed, lines, byte] => show(seed, lines, byte),
        [script, answers] => answer(script, answers),
        _ => Err(USAGE.into()),
    };
    match done {
        Ok(()) => ExitCode::SUCCESS,
        Err(error) => {
            eprintln!("{error}");
            ExitCode::FAILURE
        }
    }
}

/// Writes both files and prints how often each answer arose.
fn write(seed: &str, lines: &str, commands: &str, answers: &str) -> Result<(), Box<dyn Error>> {
    let script = Script::new(seed.parse()?, lines.parse()?);
    fs::write(commands, &script.commands)?;
    fs::write(answers, &script.answers)?;
    print!("{}", script.tally.lines());
    let missing = script.tally.missing();
    if !missing.is_empty() {
        return Err(format!("hardly arose: {}", missing.join(", ")).into());
    }
    Ok(())
}

/// Prints the line whose answer has this byte of the answers.
fn show(seed: &str, lines: &str, byte: &str) -> Result<(), Box<dyn Error>> {
    let script = Script::new(seed.parse()?, lines.parse()?);
    match script.answered_at(byte.parse()?) {
        Some((number, line)) => println!("line {number}: {}", line.escape_ascii()),
        None => println!("that is behind the answer to the last line"),
    }
    Ok(())
}

/// Writes the answers to a script that is there.
fn answer(script: &str, answers: &str) -> Result<(), Box<dyn Error>> {
    let mut session = Session::default();
    let script = fs::read(script)?;
    let said = script.split(|&byte| byte == b'\n').filter_map(|line| session.answer(line));
    fs::write(answers, said.map(|answer| answer.text).collect::<String>())?;
    Ok(())
}
