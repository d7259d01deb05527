//! Compares the proved take with a plain Rust one: what they list, and their time.

mod compare;
mod measure;
mod plain;
mod plain_lot;
mod proved;
mod records;
mod table;

// The time of a short loop changes with where its code stands, so the harness is built a few times,
// with all code moved on by a multiple of 16 bytes.
const PLACE: usize = match option_env!("BENCH_PLACE") {
    Some(digit) => (digit.as_bytes()[0] - b'0') as usize,
    None => 0,
};

std::arch::global_asm!(
    ".section .text.place, \"axR\"",
    ".skip {}",
    ".text",
    const 16 * PLACE
);

fn main() {
    match std::env::args().nth(1).as_deref() {
        Some("compare") => compare::all(),
        Some("measure") => measure::all(),
        Some("table") => table::print(std::io::stdin().lock()),
        _ => eprintln!("usage: bench compare | measure | table"),
    }
}
