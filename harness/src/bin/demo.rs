//! The demonstration over the proved code; its numbers come from flags.

use std::fs;
use std::io;
use std::path::Path;
use std::process::exit;

use harness::command_line::options;
use harness::demo::options::{Options, USAGE};
use harness::demo::{boats, told_by, Calls, HandedIn};
use harness::library;

fn main() {
    let options = options("demo", USAGE, Options::parse);
    let linked = (library::calls(), library::engine(), library::evidence_check(), library::joining());
    let (Some(signatures), Some(engine), Some(evidence), Some(joining)) = linked else {
        eprintln!("demo: it runs on the proved code, which `make demo` links");
        exit(1);
    };
    let calls = Calls { signatures, engine, evidence, joining };
    let told = told_by(calls, &boats(calls, options.larger(), options.seed), &options);
    print!("{}", told.text);
    if let Some(folder) = &options.packs {
        if let Err(error) = write(folder, &told.handed_in) {
            eprintln!("demo: {}: {error}", folder.display());
            exit(1);
        }
    }
    for fault in &told.faults {
        eprintln!("demo: NOT AS PROMISED: {fault}");
    }
    exit(i32::from(!told.faults.is_empty()));
}

/// Files for the office's tool, and how it is called with them.
fn write(folder: &Path, rounds: &[HandedIn]) -> io::Result<()> {
    fs::create_dir_all(folder)?;
    println!("\nThe packs are in files; to join them:");
    for HandedIn { round, keys, packs } in rounds {
        for (name, bytes) in packs.iter().chain([keys]) {
            fs::write(folder.join(name), bytes)?;
        }
        let at = fs::canonicalize(folder)?;
        println!("  make join JOIN=\"--round {round} --keys {0}/{1} {0}/round-{round}-*.pack\"", at.display(), keys.0);
    }
    Ok(())
}
