//! Writes the first input of a script of data/yard to standard output: `yard_input confirm` makes crates/yard_confirm/stdin,
//! `yard_input radio` examples/round.bin.

use std::io::Write;

fn main() {
    let name = std::env::args().nth(1).expect("the name of a script");
    let path = format!("{}/data/yard/{name}.txt", env!("CARGO_MANIFEST_DIR"));
    let text = std::fs::read_to_string(&path).expect(&path);
    let runs = harness::yard::runs(&text).unwrap_or_else(|difference| panic!("{path}, {difference}"));
    std::io::stdout().write_all(&runs[0].input).expect("standard output");
}
