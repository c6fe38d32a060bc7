//! The words that a program was started with.

use std::process::exit;

/// The options that the words make. Where they ask for the program's page, or make no sense, the program ends here.
pub fn options<O>(program: &str, page: &str, parse: fn(&[String]) -> Result<O, String>) -> O {
    let words: Vec<String> = std::env::args().skip(1).collect();
    if words.iter().any(|word| word == "--help" || word == "-h") {
        print!("{page}");
        exit(0);
    }
    parse(&words).unwrap_or_else(|error| {
        eprintln!("{program}: {error}\n\n{page}");
        exit(2);
    })
}
