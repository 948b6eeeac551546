//! `generate KIND SEED LENGTH` writes a random record file to standard output;
//! `generate --list` names the kinds.

use second_model::generate::{generate, KINDS};
use std::io::{self, Write};
use std::process::ExitCode;

fn main() -> io::Result<ExitCode> {
    let arguments: Vec<String> = std::env::args().skip(1).collect();
    if arguments == ["--list"] {
        for (name, about) in KINDS {
            println!("{name:<20} {about}");
        }
        return Ok(ExitCode::SUCCESS);
    }
    let Some(bytes) = wanted(&arguments) else {
        eprintln!("usage: generate KIND SEED LENGTH > FILE, or generate --list");
        return Ok(ExitCode::from(2));
    };
    io::stdout().write_all(&bytes)?;
    Ok(ExitCode::SUCCESS)
}

/// The file that the arguments ask for.
fn wanted(arguments: &[String]) -> Option<Vec<u8>> {
    let [kind, seed, length] = arguments else {
        return None;
    };
    generate(kind, seed.parse().ok()?, length.parse().ok()?)
}
