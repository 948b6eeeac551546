//! A run program that is wrong on purpose, to show that `compare` looks at the
//! last field: a read of value 0 that finishes `old` gets `-`, as if an object
//! never written had no stamp to compare.

use std::io::{self, Read, Write};

/// The lines with the fault put in.
fn spoil(lines: &str) -> String {
    let mut wrong = String::new();
    for line in lines.lines() {
        match line.strip_suffix(" 0 old") {
            Some(start) => wrong += &format!("{start} 0 -\n"),
            None => wrong += &format!("{line}\n"),
        }
    }
    wrong
}

fn main() -> io::Result<()> {
    let mut input = Vec::new();
    io::stdin().lock().read_to_end(&mut input)?;
    let lines = second_model::run::output(&input);
    let wrong = spoil(&String::from_utf8_lossy(&lines));
    io::stdout().write_all(wrong.as_bytes())
}
