//! A table in Markdown, with the mean of its ratios.

use std::fmt::Display;

/// Prints the head of a table.
pub fn print_head(head: [&str; 4]) {
    let [name, ours, theirs, ratio] = head;
    println!("| {name} | {ours} | {theirs} | {ratio} |");
    println!("|---|---|---|---|");
}

/// Prints rows of it: the costs of ours and of theirs and how often ours goes into
/// theirs; and below them the geometric mean of that.
pub fn print_rows<N: Display>(names: &[N], costs: &[[f64; 2]]) {
    let mut logs = 0.0;
    for (name, [ours, theirs]) in names.iter().zip(costs) {
        let ratio = theirs / ours;
        println!("| {name} | {ours:.2} | {theirs:.2} | {ratio:.2} |");
        logs += ratio.ln();
    }
    let mean = (logs / costs.len() as f64).exp();
    println!("| geometric mean | | | {mean:.2} |");
}
