//! A run program that is wrong on purpose, to show that `compare` looks at give-ups
//! of both lengths: after one with length 2 it looks for the next record two bytes
//! too far.

use second_model::records::{given_up_in_two_bytes, read};
use second_model::run::{output, INPUT_LONGEST};
use std::io::{self, Read, Write};

/// The bytes that such a reader takes for records. An input that is too long stays
/// as it is.
fn seen(input: &[u8]) -> Vec<u8> {
    if input.len() > INPUT_LONGEST {
        return input.to_vec();
    }
    let mut seen = Vec::with_capacity(input.len());
    let mut rest = input;
    while let Some((_, size)) = read(rest) {
        let (record, after) = rest.split_at(size);
        seen.extend_from_slice(record);
        let skipped = match given_up_in_two_bytes(record) {
            Some(_) => after.len().min(2),
            None => 0,
        };
        rest = &after[skipped..];
    }
    seen.extend_from_slice(rest);
    seen
}

fn main() -> io::Result<()> {
    let mut input = Vec::new();
    io::stdin().lock().read_to_end(&mut input)?;
    io::stdout().write_all(&output(&seen(&input)))
}
