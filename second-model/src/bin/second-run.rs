//! Runs a file of records, from standard input or a file named, and prints
//! what document 01 says.

use std::io::{self, Read, Write};

fn main() -> io::Result<()> {
    let input = match std::env::args_os().nth(1) {
        Some(path) => std::fs::read(path)?,
        None => {
            let mut input = Vec::new();
            io::stdin().lock().read_to_end(&mut input)?;
            input
        }
    };
    io::stdout().write_all(&second_model::run::output(&input))
}
