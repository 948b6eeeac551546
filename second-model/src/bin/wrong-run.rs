//! A run program that is wrong on purpose, to show that `compare` can fail:
//! with 64 packets waiting, the repeat of an unstamped write gives 6 in place
//! of 8 (refusals tested in the wrong order, against P9).

use std::io::{self, Read, Write};

/// The lines with the fault put in.
fn spoil(lines: &str) -> String {
    let mut full = false;
    let mut wrong = String::new();
    for line in lines.lines() {
        let fields: Vec<&str> = line.split(' ').collect();
        match fields[1..] {
            ["ok", waiting, ..] => full = waiting == "64",
            ["no", "8"] if full => {
                wrong += &format!("{} no 6\n", fields[0]);
                continue;
            }
            _ => {}
        }
        wrong += line;
        wrong.push('\n');
    }
    wrong
}

fn main() -> io::Result<()> {
    let mut input = Vec::new();
    io::stdin().lock().read_to_end(&mut input)?;
    let lines = second_model::run::output(&input);
    let wrong = spoil(&String::from_utf8_lossy(&lines));
    io::stdout().write_all(wrong.as_bytes())
}
