//! The shipped header and archive from C programs.
#![cfg(feature = "zolbine")]

use std::path::{Path, PathBuf};
use std::process::{Command, Output};

use harness::c_program::{compile, compiler, file, SANITIZED};

/// A C file of the repository as a program of the name.
fn compiled_by(compiler: Command, source: &str, name: &str, flags: &[&str]) -> PathBuf {
    let program = Path::new(env!("CARGO_TARGET_TMPDIR")).join(name);
    compile(compiler, source, &program, flags);
    program
}

fn compiled(source: &str, name: &str, flags: &[&str]) -> PathBuf {
    compiled_by(compiler(false), source, name, flags)
}

fn told(run: &Output) -> String {
    format!("{}{}", String::from_utf8_lossy(&run.stdout), String::from_utf8_lossy(&run.stderr))
}

/// Output of a program that ends well.
fn printed(program: &Path) -> String {
    let run = Command::new(program).output().unwrap();
    assert!(run.status.success() && run.stderr.is_empty(), "{}: {}", program.display(), told(&run));
    String::from_utf8(run.stdout).unwrap()
}

#[test]
fn a_c_program_makes_a_key_signs_and_checks() {
    printed(&compiled("harness/c/use_zolbine.c", "use_zolbine", &[]));
}

/// The header's lengths for every n against those that the calls take.
#[test]
fn the_headers_lengths_are_those_of_the_calls() {
    let c = printed(&compiled("harness/c/lengths.c", "lengths", &SANITIZED));
    let cpp = printed(&compiled_by(compiler(true), "harness/c/lengths.c", "lengths_cpp", &[]));
    assert!(c == cpp && c.trim().parse::<u32>().unwrap() > 5000, "{c}{cpp}");
}

/// The header's macros with a parameter, but for those that it undefines.
fn macros() -> Vec<String> {
    let header = std::fs::read_to_string(file("include/zolbine.h")).unwrap();
    let undefined = |name: &str| header.lines().any(|line| line.strip_prefix("#undef ") == Some(name));
    let defined = header.lines().filter_map(|line| line.strip_prefix("#define ")?.split([' ', ')']).next());
    let mut names: Vec<String> =
        defined.filter_map(|start| start.split_once('(')).map(|(name, _)| name.into()).collect();
    names.retain(|name| !undefined(name));
    names.sort();
    names.dedup();
    names
}

/// A C++ program may forbid C's casts: each macro, of a constant and of numbers of several types.
#[test]
fn the_headers_macros_in_cpp_without_old_casts() {
    let names = macros();
    let known = ["ZOLBINE_JOINED_OUT_LEN", "ZOLBINE_OUT_LEN", "ZOLBINE_T0"];
    assert!(known.iter().all(|known| names.iter().any(|name| name == known)), "{names:?}");
    let lengths = names.iter().map(|name| format!("sum += {name}(n); static_assert({name}(7) > 1, \"\");"));
    let body = lengths.collect::<Vec<_>>().join(" ");
    let text = format!(
        "#include \"zolbine.h\"\ntemplate <typename T> size_t lengths(T n) {{ size_t sum = 0; {body} return sum; }}\n\
        int main() {{ return lengths(7) == lengths(uint8_t(7)) && lengths(7u) == lengths(size_t(7)) ? 0 : 1; }}\n"
    );
    let source = Path::new(env!("CARGO_TARGET_TMPDIR")).join("macros.cpp");
    std::fs::write(&source, text).unwrap();
    printed(&compiled_by(compiler(true), source.to_str().unwrap(), "macros_cpp", &["-Wold-style-cast"]));
}

/// Boat 1 has kept the SUBMITs of two seats when it submits, and so confirms at once: 3 of 4. Boat 0 hears of boat 1's layout
/// before it confirms its own. Each of these two calls writes two messages. Before each of them its boat loses power, and loses
/// nothing by it. Both name two seats, and so does the one pack: 4 + 2,970 x 2 bytes.
const SPLIT: &str = "\
(seat 2 signs for boat 1)
boat 1 hears SUBMIT: 0
(seat 3 signs for boat 1)
boat 1 hears SUBMIT: 0
boat 1 loses power and comes back: 0
boat 0 submits: 0
    boat 0 sends SUBMIT, 1488 bytes
boat 1 submits: 0
    boat 1: CONFIRMED
    boat 1 sends SUBMIT, 1488 bytes
    boat 1 sends NOTICE, 36 bytes
(seat 2 signs for boat 0)
boat 0 hears SUBMIT: 0
boat 1 hears SUBMIT: 0
boat 0 hears SUBMIT: 0
boat 0 hears NOTICE: 0
boat 0 loses power and comes back: 0
(seat 3 signs for boat 0)
boat 0 hears SUBMIT: 0
    boat 0: CONFIRMED
    boat 0 sends NOTICE, 36 bytes
    boat 0 sends FULL, 4399 bytes
boat 1 hears NOTICE: 0
    boat 1 sends FULL, 4399 bytes
boat 1 hears FULL: 0
    boat 1 sends EVIDENCE, 5944 bytes
boat 0 hears FULL: 0
    boat 0 sends EVIDENCE, 5944 bytes
boat 0 hears EVIDENCE: 0, seats 0x0000000c
boat 1 hears EVIDENCE: 0, seats 0x0000000c
boat 0: north confirmed, evidence against 0x0000000c
boat 1: south confirmed, evidence against 0x0000000c
the office joins both packs: 0, 5944 bytes, evidence against 0x0000000c
";

#[test]
fn a_round_with_two_double_signers_in_c_and_in_cpp() {
    let source = "harness/c/double_signers.c";
    assert_eq!(printed(&compiled(source, "double_signers", &[])), SPLIT);
    assert_eq!(printed(&compiled_by(compiler(true), source, "double_signers_cpp", &[])), SPLIT);
}

mod installed {
    use super::*;
    use std::fs;

    /// `make install` into an empty folder of the name; the archive is taken as it stands.
    fn install(name: &str, arguments: impl Fn(&str) -> Vec<String>) -> PathBuf {
        let folder = Path::new(env!("CARGO_TARGET_TMPDIR")).join(name);
        let _ = fs::remove_dir_all(&folder);
        let archive = fs::canonicalize(env!("ZOLBINE_ARCHIVE")).unwrap();
        let mut make = Command::new("make");
        make.arg("install")
            .arg("-C")
            .arg(file("."))
            .arg("-o")
            .arg(&archive)
            .arg(format!("ARCHIVE={}", archive.display()));
        // The tests may themselves run under make.
        make.args(arguments(folder.to_str().unwrap())).env_remove("MAKEFLAGS").env_remove("MAKELEVEL");
        let run = make.output().unwrap();
        assert!(run.status.success(), "{make:?}: {}", told(&run));
        folder
    }

    /// The flags by pkg-config, or by zolbine.pc itself where that isn't installed.
    fn flags(prefix: &Path) -> Vec<String> {
        let folder = prefix.join("lib/pkgconfig");
        let told =
            Command::new("pkg-config").args(["--cflags", "--libs", "zolbine"]).env("PKG_CONFIG_PATH", &folder).output();
        let text = match told {
            Ok(run) => {
                assert!(run.status.success(), "{}", super::told(&run));
                String::from_utf8(run.stdout).unwrap()
            }
            Err(_) => by_file(&fs::read_to_string(folder.join("zolbine.pc")).unwrap()),
        };
        text.split_whitespace().map(String::from).collect()
    }

    fn by_file(text: &str) -> String {
        let mut variables: Vec<(String, String)> = Vec::new();
        let mut flags = String::new();
        for line in text.lines() {
            let line = variables.iter().fold(line.to_string(), |line, (name, value)| line.replace(name, value));
            if let Some((name, value)) = line.split_once('=') {
                variables.push((format!("${{{name}}}"), value.to_string()));
            } else if let Some((_, value)) = line.split_once(": ").filter(|(name, _)| ["Cflags", "Libs"].contains(name))
            {
                flags += &format!(" {value}");
            }
        }
        flags
    }

    #[test]
    fn a_program_finds_the_library_by_pkg_config() {
        let prefix = install("installed", |folder| vec![format!("PREFIX={folder}")]);
        let flags = flags(&prefix);
        let text = fs::read_to_string(prefix.join("lib/pkgconfig/zolbine.pc")).unwrap();
        assert_eq!(by_file(&text).split_whitespace().collect::<Vec<_>>(), flags);
        let program = prefix.join("lengths");
        let mut compile = compiler(false);
        compile.arg(file("harness/c/lengths.c")).args(&flags).arg("-o").arg(&program);
        assert!(compile.status().unwrap().success(), "{compile:?}");
        printed(&program);
    }

    /// A package is built below another root than the one that it will stand in.
    #[test]
    fn below_another_root() {
        let root = install("root", |folder| vec!["PREFIX=/usr".to_string(), format!("DESTDIR={folder}")]);
        let text = fs::read_to_string(root.join("usr/lib/pkgconfig/zolbine.pc")).unwrap();
        assert_eq!(by_file(&text).trim(), "-I/usr/include -L/usr/lib -lzolbine");
        assert_eq!(fs::read(root.join("usr/include/zolbine.h")).unwrap(), fs::read(file("include/zolbine.h")).unwrap());
        assert_eq!(fs::read(root.join("usr/lib/libzolbine.a")).unwrap(), fs::read(env!("ZOLBINE_ARCHIVE")).unwrap());
    }
}

/// As in docs/HOST.md: no variables, and little of the C library.
#[test]
fn the_archive_shares_nothing() {
    let symbols = Command::new("nm").arg("--format=posix").arg(env!("ZOLBINE_ARCHIVE")).output().unwrap();
    assert!(symbols.status.success(), "{}", told(&symbols));
    let text = String::from_utf8(symbols.stdout).unwrap();
    let mut seen = 0;
    for line in text.lines() {
        if let [name, kind, ..] = line.split_whitespace().collect::<Vec<_>>()[..] {
            let known = match kind {
                "U" => ["memcpy", "memmove", "memset"].contains(&name),
                // Code, and constants.
                "t" | "T" | "r" | "R" => true,
                _ => false,
            };
            assert!(known, "{line}");
            seen += 1;
        }
    }
    assert!(seen > 0, "nm told no symbols");
}

mod example {
    use super::*;
    use harness::air;
    use harness::compare::progress;
    use harness::confirmer::{Engine, EvidenceCheck, Reference};
    use harness::reference::layout::{self, SIGNATURE, VALUE};
    use harness::reference::lms::PUBLIC_KEY;
    use harness::reference::messages::{EVIDENCE, FULL, NOTICE, OLD_EVIDENCE, SUBMIT};
    use harness::reference::record::Record;
    use harness::{reference, yard};

    /// The program's output is the expected one, and whatever watches it has nothing to say.
    fn runs_well(mut command: Command) {
        let run = command.arg(file("examples/round.bin")).output().unwrap();
        assert!(run.status.success() && run.stderr.is_empty(), "{command:?}: {}", told(&run));
        let expected = std::fs::read(file("examples/unit.txt")).unwrap();
        assert!(run.stdout == expected, "{command:?}: {}", told(&run));
    }

    /// By length and output, since the keys of the recorded round are those of the seed that it was made with.
    #[test]
    fn the_recorded_round_comes_to_what_its_script_says() {
        let runs = yard::runs(include_str!("../data/yard/radio.txt")).unwrap();
        let recorded = std::fs::read(file("examples/round.bin")).unwrap();
        assert_eq!((recorded.len(), reference::yard::yard(&recorded)), (runs[0].input.len(), runs[0].output.clone()));
    }

    /// What a recorded round comes to by the reference, in the example's words.
    fn by_the_reference(mut input: &[u8]) -> String {
        let mut take = |length: usize| {
            let (taken, rest) = input.split_at_checked(length)?;
            input = rest;
            Some(taken)
        };
        let (n, seat) = match take(3) {
            Some(&[0x10, n, seat]) => (n.into(), seat.into()),
            other => panic!("no opening: {other:?}"),
        };
        let number = |bytes: &[u8]| u32::from(bytes[0]) << 8 | u32::from(bytes[1]);
        let round = number(take(2).unwrap());
        let keys = take(PUBLIC_KEY * n as usize).unwrap();
        let opened = Reference.open(n, seat, round, keys);
        let mut told = format!("open n {n}, seat {seat}, round {round}: {}\n", opened.number);
        let (mut record, mut store, mut out) = (opened.record, vec![0; layout::store(n)], vec![0; layout::out(n)]);
        while let Some(&[command]) = take(1) {
            let Record { kept, .. } = record;
            let (name, answer) = if command == 0x12 {
                let (value, signature) = (take(VALUE).unwrap(), take(SIGNATURE).unwrap());
                ("submit", Reference.submit(record, keys, &mut store, value, signature, &mut out))
            } else {
                let length = number(take(2).unwrap());
                let message = take(length as usize).unwrap();
                if [EVIDENCE, OLD_EVIDENCE].contains(&message[0]) {
                    let verdict = Reference.check_evidence(n, round, keys, message);
                    told += &format!("{}: {}, seats {:#010x}\n", name(message), verdict.number, verdict.mask);
                    continue;
                }
                (name(message), Reference.step(record, keys, &mut store, message, &mut out))
            };
            record = answer.record;
            told += &format!("{name}: {}\n", answer.number);
            for message in air::messages(n, &out[..answer.written as usize]) {
                told += &format!("  sends {}, {} bytes\n", self::name(&message), message.len());
            }
            if command == 0x11 && record.kept != kept {
                told += "  kept for the own submit\n";
            }
        }
        let confirmed = if record.confirmed { "confirmed" } else { "not confirmed" };
        told + &format!("{confirmed}; double signers {:#010x}\n", record.guilty)
    }

    fn name(message: &[u8]) -> &'static str {
        match message[0] {
            SUBMIT => "SUBMIT",
            NOTICE => "NOTICE",
            FULL => "FULL",
            EVIDENCE => "EVIDENCE",
            OLD_EVIDENCE => "old EVIDENCE",
            _ => "garbled",
        }
    }

    #[test]
    fn the_expected_output_is_the_references() {
        let recorded = std::fs::read(file("examples/round.bin")).unwrap();
        let expected = std::fs::read_to_string(file("examples/unit.txt")).unwrap();
        assert_eq!(by_the_reference(&recorded), expected);
    }

    #[test]
    fn a_units_loop_under_the_sanitizers() {
        runs_well(Command::new(compiled("examples/unit.c", "unit_sanitized", &SANITIZED)));
    }

    /// The archive's own reads and writes are seen by valgrind alone: the sanitizers watch what they compile.
    #[test]
    fn a_units_loop_under_valgrind() {
        if Command::new("valgrind").arg("--version").output().is_err() {
            progress("valgrind isn't installed: the example runs under the sanitizers alone");
            return;
        }
        let mut valgrind = Command::new("valgrind");
        valgrind.args(["--quiet", "--error-exitcode=9", "--leak-check=full"]);
        valgrind.arg(compiled("examples/unit.c", "unit", &["-g"]));
        runs_well(valgrind);
    }
}
