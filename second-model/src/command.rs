//! What a command that writes a record file takes and answers with.

use crate::model::Refusal;
use std::io::{self, Read, Write};
use std::process::ExitCode;

/// The words after the program's name. What is no text has signs that are none of
/// a number.
pub fn words() -> Vec<String> {
    let words = std::env::args_os().skip(1);
    words.map(|w| w.to_string_lossy().into_owned()).collect()
}

/// The bytes of the file that the only word names, or of standard input for `-` and
/// without a word. Otherwise the reason goes to standard error, with exit status 2.
pub fn input(program: &str) -> Result<Vec<u8>, ExitCode> {
    let mut words = std::env::args_os().skip(1);
    let (name, more) = (words.next(), words.next());
    if more.is_some() {
        eprintln!("usage: {program} [FILE]");
        return Err(ExitCode::from(2));
    }
    let read = match name.filter(|name| name != "-") {
        Some(path) => std::fs::read(path),
        None => {
            let mut input = Vec::new();
            let read = io::stdin().lock().read_to_end(&mut input);
            read.map(|_| input)
        }
    };
    read.map_err(|error| {
        eprintln!("{program}: {error}");
        ExitCode::from(2)
    })
}

/// The bytes on standard output; or the line `no K` on standard error, nothing on
/// standard output and exit status 1.
pub fn respond(answer: Result<Vec<u8>, Refusal>) -> io::Result<ExitCode> {
    match answer {
        Ok(bytes) => {
            io::stdout().write_all(&bytes)?;
            Ok(ExitCode::SUCCESS)
        }
        Err(refusal) => {
            eprintln!("no {}", refusal.number());
            Ok(ExitCode::FAILURE)
        }
    }
}
