//! The table of what was measured, the best of each line.

use crate::measure::{DAYS, Times};
use crate::records::Shape;
use std::collections::HashMap;
use std::io::BufRead;

type Rows = HashMap<(String, usize), Times>;

/// Reads the lines of any number of measurements and prints both tables.
pub fn print(lines: impl BufRead) {
    let mut rows = Rows::new();
    for line in lines.lines() {
        let line = line.expect("a line of text");
        add(&mut rows, &line).unwrap_or_else(|| panic!("no measurement: {line}"));
    }
    print_times(&rows);
    println!();
    print_growth(&rows);
}

/// Keeps the best of a line and of what was read for its row before.
fn add(rows: &mut Rows, line: &str) -> Option<()> {
    let mut parts = line.split('\t');
    let shape = parts.next()?.to_string();
    let days = parts.next()?.parse().ok()?;
    let times = Times {
        plain: parts.next()?.parse().ok()?,
        ours: parts.next()?.parse().ok()?,
    };
    let row = rows.entry((shape, days)).or_insert(Times::NONE);
    *row = row.best(times);
    Some(())
}

fn row(rows: &Rows, shape: Shape, days: usize) -> Times {
    rows[&(shape.name().to_string(), days)]
}

fn print_times(rows: &Rows) {
    println!("| shape | days | plain Rust, ns | proved, ns | ratio |");
    println!("|---|---:|---:|---:|---:|");
    for shape in Shape::ALL {
        for days in DAYS {
            let Times { plain, ours } = row(rows, shape, days);
            let ratio = ours / plain;
            println!(
                "| {} | {days} | {plain:.0} | {ours:.0} | {ratio:.2} |",
                shape.name()
            );
        }
    }
}

fn print_growth(rows: &Rows) {
    println!("Times longer at 1,000 days than at 125:\n");
    println!("| shape | plain Rust | proved |");
    println!("|---|---:|---:|");
    for shape in Shape::ALL {
        let short = row(rows, shape, 125);
        let long = row(rows, shape, 1000);
        let plain = long.plain / short.plain;
        let ours = long.ours / short.ours;
        println!("| {} | {plain:.1} | {ours:.1} |", shape.name());
    }
}
