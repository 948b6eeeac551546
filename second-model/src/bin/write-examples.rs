//! `write-examples DIR` writes the stored examples: NAME.records, NAME.lines, the
//! `index` of names, and `listing-cuts.lines`.

use second_model::examples::write_all;
use std::path::Path;
use std::process::ExitCode;

fn main() -> ExitCode {
    let Some(folder) = std::env::args_os().nth(1) else {
        eprintln!("usage: write-examples DIR");
        return ExitCode::from(2);
    };
    match write_all(Path::new(&folder)) {
        Ok(count) => {
            println!("wrote {count} examples");
            ExitCode::SUCCESS
        }
        Err(error) => {
            eprintln!("write-examples: {error}");
            ExitCode::FAILURE
        }
    }
}
