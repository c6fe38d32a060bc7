//! The harbour office's tool over the proved code: one pack of evidence from those that boats handed in.

use std::collections::BTreeSet;
use std::fs;
use std::path::{Path, PathBuf};
use std::process::exit;

use harness::command_line::options;
use harness::library;
use harness::office::options::{Options, USAGE};
use harness::office::{Calls, Office};
use harness::reference::lms::PUBLIC_KEY;
use harness::reference::refusals::is_size;

fn main() {
    let options = options("join", USAGE, Options::parse);
    let (Some(evidence), Some(joining)) = (library::evidence_check(), library::joining()) else {
        eprintln!("join: it runs on the proved code, which `make join` links");
        exit(2);
    };
    match joined(Calls { evidence, joining }, &options) {
        Ok(all_taken) => exit(i32::from(!all_taken)),
        Err(error) => {
            eprintln!("join: {error}");
            exit(2);
        }
    }
}

/// Whether every pack was taken.
fn joined(calls: Calls, options: &Options) -> Result<bool, String> {
    let Options { keys, round, out, packs } = options;
    let given = || packs.iter().chain([keys]);
    if let Some(out) = out.as_ref().filter(|out| given().any(|file| is_same(file, out))) {
        return Err(format!("--out {}: this file is read, and would be lost", out.display()));
    }
    let table = read(keys)?;
    let n = (table.len() / PUBLIC_KEY) as u32;
    if table.len() % PUBLIC_KEY != 0 || !is_size(n) {
        let bytes = table.len();
        return Err(format!(
            "{}: {bytes} bytes; a key table has {PUBLIC_KEY} for each of 1 to 32 boats",
            keys.display()
        ));
    }
    let office = Office { calls, n, round: *round, keys: &table };
    let mut handed = Vec::new();
    for (pack, name) in packs.iter().zip(names(packs)) {
        handed.push(office.handed(name, read(pack)?));
    }
    if handed.iter().any(|pack| pack.verdict.number == 5) {
        return Err(format!("{}: a key in it isn't of types 6 and 4", keys.display()));
    }
    let joined = office.join(&handed).map_err(|fault| format!("NOT AS PROMISED: {fault}"))?;
    print!("{}", office.told(&handed, joined.as_ref()));
    match (&joined, out) {
        (Some(joined), Some(out)) => {
            fs::write(out, &joined.bytes).map_err(|error| format!("{}: {error}", out.display()))?;
            println!("\nThe pack is written to {}.", out.display());
        }
        (Some(_), None) => println!("\nNothing is written; --out FILE keeps the pack."),
        (None, _) => (),
    }
    Ok(handed.iter().all(|pack| pack.number() == 0))
}

fn read(path: &Path) -> Result<Vec<u8>, String> {
    fs::read(path).map_err(|error| format!("{}: {error}", path.display()))
}

/// The files' names; with their folders where two have the same.
fn names(packs: &[PathBuf]) -> Vec<String> {
    let name = |pack: &PathBuf| pack.file_name().map(|name| name.to_string_lossy().into_owned());
    match packs.iter().map(name).collect::<Option<BTreeSet<String>>>() {
        Some(names) if names.len() == packs.len() => packs.iter().filter_map(name).collect(),
        _ => packs.iter().map(|pack| pack.display().to_string()).collect(),
    }
}

/// Whether two paths lead to one file that is there.
fn is_same(one: &Path, other: &Path) -> bool {
    matches!((fs::canonicalize(one), fs::canonicalize(other)), (Ok(one), Ok(other)) if one == other)
}
