//! Makes a copy of a part of the reference for each fault of faults.txt, with the fault's lines replaced.

use std::collections::BTreeMap;
use std::path::PathBuf;
use std::{env, fs};

/// A part of the reference that is copied around a fault in one of its files.
struct Part {
    /// Tests of its mutants: a variant of `Subject`, and the macro that gives the copies' calls to a type.
    subject: &'static str,
    calls: &'static str,
    files: &'static [&'static str],
    /// Copies only what the fault reaches: its file, and those that name a copied one. The rest is the reference's.
    reached: bool,
    /// Modules that the copies use unchanged.
    whole: &'static str,
}

/// Faults go into the first part that has their file.
const PARTS: [Part; 4] = [
    Part {
        subject: "Confirmer",
        calls: "confirmer_of",
        files: &[
            "dispatcher",
            "engine",
            "evidence",
            "impossible",
            "layout",
            "messages",
            "note",
            "quorum",
            "seats",
            "refusals",
        ],
        reached: true,
        whole: "pub use harness::reference::{calls, lms, record, verdicts};",
    },
    Part { subject: "Sha256", calls: "sha256_of", files: &["sha256"], reached: false, whole: "" },
    Part {
        subject: "Calls",
        calls: "calls_of",
        files: &["calls", "lms"],
        reached: false,
        whole: "pub use crate::once::lmots; pub use harness::reference::{layout, record, refusals};
            pub mod verdicts { pub use super::lms::verify; }",
    },
    Part {
        subject: "Calls",
        calls: "calls_of",
        files: &["calls", "lms", "lmots"],
        reached: false,
        whole: "pub use harness::reference::{layout, record, refusals, sha256};
            pub mod verdicts { pub use super::lms::verify; }",
    },
];

#[derive(Default)]
struct Fault {
    what: String,
    file: String,
    battery: String,
    /// An edit that changes no meaning.
    harmless: bool,
    right: Vec<String>,
    wrong: Vec<String>,
}

fn main() {
    let here = PathBuf::from(env::var_os("CARGO_MANIFEST_DIR").expect("set by cargo"));
    let out = PathBuf::from(env::var_os("OUT_DIR").expect("set by cargo"));
    let read = |path: PathBuf| {
        println!("cargo:rerun-if-changed={}", path.display());
        fs::read_to_string(&path).unwrap_or_else(|error| panic!("{}: {error}", path.display()))
    };
    let source = |name: &str| {
        let text = read(here.join(format!("../src/reference/{name}.rs")));
        text.split("#[cfg(test)]").next().unwrap_or_default().to_string()
    };
    let files = PARTS.iter().flat_map(|part| part.files);
    let sources: BTreeMap<&str, String> = files.map(|&name| (name, source(name))).collect();
    let faults = read(here.join("faults.txt"));
    let faults: Vec<Fault> = faults.split("\n\n").filter_map(fault).collect();
    let mut text = String::new();
    let mut list = String::new();
    for (number, fault) in faults.iter().enumerate() {
        let Fault { what, file, battery, harmless, .. } = fault;
        let part = PARTS.iter().find(|part| part.files.contains(&file.as_str()));
        let part = part.unwrap_or_else(|| panic!("{what}: no file {file}"));
        text.push_str(&mutant(number, fault, part, &sources));
        let subject = format!("Subject::{}(&M{number})", part.subject);
        list.push_str(&format!(
            "Mutant {{ fault: {what:?}, battery: {battery:?}, harmless: {harmless}, subject: {subject} }},\n"
        ));
    }
    text.push_str(&format!("pub const ALL: [Mutant; {}] = [\n{list}];\n", faults.len()));
    fs::write(out.join("mutants.rs"), text).expect("the folder for what is made");
}

/// A block of the file: the fault in words, `FILE, BATTERY` or `FILE, BATTERY, harmless`, the right lines and the wrong ones.
/// None for a comment.
fn fault(block: &str) -> Option<Fault> {
    let mut fault = Fault::default();
    for line in block.lines().filter(|line| !line.starts_with('#')) {
        if let Some(right) = line.strip_prefix("- ") {
            fault.right.push(right.to_string());
        } else if let Some(wrong) = line.strip_prefix("+ ") {
            fault.wrong.push(wrong.to_string());
        } else if fault.what.is_empty() {
            fault.what = line.to_string();
        } else {
            match line.split(", ").collect::<Vec<_>>()[..] {
                [file, battery] => (fault.file, fault.battery) = (file.to_string(), battery.to_string()),
                [file, battery, "harmless"] => {
                    (fault.file, fault.battery, fault.harmless) = (file.to_string(), battery.to_string(), true);
                }
                _ => panic!("file and battery: {line}"),
            }
        }
    }
    (!fault.what.is_empty()).then_some(fault)
}

/// The files of a part that are copied for a fault in one of them.
fn copied<'a>(file: &'a str, part: &Part, sources: &BTreeMap<&str, String>) -> Vec<&'a str> {
    if !part.reached {
        return part.files.to_vec();
    }
    let mut found = vec![file];
    loop {
        let names = |name: &str| found.iter().any(|module| sources[name].contains(&format!("super::{module}")));
        match part.files.iter().find(|name| !found.contains(name) && names(name)) {
            Some(name) => found.push(name),
            None => return found,
        }
    }
}

/// The part's files with one of them changed, and their calls given to a type.
fn mutant(number: usize, fault: &Fault, part: &Part, sources: &BTreeMap<&str, String>) -> String {
    let Fault { what, file, right, wrong, .. } = fault;
    let (right, wrong) = (right.join("\n"), wrong.join("\n"));
    let copied = copied(file, part, sources);
    let mut modules = String::new();
    for name in part.files {
        if !copied.contains(name) {
            modules.push_str(&format!("pub use harness::reference::{name};\n"));
            continue;
        }
        let mut text = sources[name].clone();
        if name == file {
            assert_eq!(text.matches(&right).count(), 1, "{what}: {file}.rs doesn't have once:\n{right}");
            assert_ne!(right, wrong, "{what}: nothing is edited");
            text = text.replace(&right, &wrong);
        }
        modules.push_str(&format!("pub mod {name} {{ {text} }}\n"));
    }
    let Part { calls, whole, .. } = part;
    format!(
        "#[allow(warnings, clippy::all)]
        pub mod m{number} {{
            {whole}
            {modules}
        }}
        struct M{number};
        harness::{calls}!(M{number}: crate::m{number});
        "
    )
}
