//! The own submit of a unit that has kept 31 seats checks no signature but its own: valgrind counts the submit's instructions in
//! two rounds of the example. Nothing is timed.
#![cfg(feature = "zolbine")]

use std::path::Path;
use std::process::Command;

use harness::c_program::{compile, compiler};
use harness::compare::progress;
use harness::fleet::{layouts, Fleet};
use harness::yard::{hearing, opening, submitting};

const FLEET: Fleet = Fleet { n: 32, round: 5 };

/// Fewer instructions than any check of a signature takes: 510 hashes or more.
const CHEAPEST_CHECK: u64 = 100_000;

/// A round of boat 0: SUBMITs of its own layout by other seats, then its submit.
fn round(others: &[u32]) -> Vec<u8> {
    let Fleet { n, round } = FLEET;
    let value = layouts()[5];
    let mut input = opening(n, 0, round, &FLEET.key_table());
    input.extend(others.iter().flat_map(|&seat| hearing(&FLEET.submit(seat, &value, 0).write())));
    input.extend(submitting(&value, &FLEET.signature(0, &value, 0)));
    input
}

/// Instructions that the example takes in its function `submit`, and what it prints last.
fn submit_counted(program: &Path, name: &str, input: &[u8]) -> (u64, String) {
    let file = Path::new(env!("CARGO_TARGET_TMPDIR")).join(name);
    std::fs::write(&file, input).expect("a file for the round");
    let mut valgrind = Command::new("valgrind");
    valgrind.args(["--tool=callgrind", "--callgrind-out-file=/dev/null", "--toggle-collect=submit"]);
    let run = valgrind.arg(program).arg(file).output().expect("valgrind runs");
    let told = String::from_utf8_lossy(&run.stderr);
    assert!(run.status.success(), "{told}");
    let collected = told.lines().find_map(|line| line.split("Collected : ").nth(1));
    let count = collected.and_then(|count| count.trim().parse().ok()).unwrap_or_else(|| panic!("no count: {told}"));
    (count, String::from_utf8_lossy(&run.stdout).lines().last().unwrap_or_default().to_string())
}

/// Both rounds have the same own signature. The check of another one would add about as much again.
#[test]
fn a_submit_checks_its_own_signature_alone() {
    if Command::new("valgrind").arg("--version").output().is_err() {
        progress("valgrind isn't installed: the instructions of a submit aren't counted");
        return;
    }
    let program = Path::new(env!("CARGO_TARGET_TMPDIR")).join("unit_counted");
    compile(compiler(false), "examples/unit.c", &program, &[]);
    let (with_none, told) = submit_counted(&program, "none_kept.bin", &round(&[]));
    assert_eq!(told, "not confirmed; double signers 0x00000000");
    let (with_all, told) = submit_counted(&program, "all_kept.bin", &round(&FLEET.seats()[1..]));
    assert_eq!(told, "confirmed; double signers 0x00000000");
    assert!(with_none > CHEAPEST_CHECK, "{with_none} instructions are no signature check");
    progress(&format!("instructions of a submit: {with_none} with no seat kept, {with_all} with 31"));
    assert!(with_all < with_none + with_none / 2, "{with_all} instructions with 31 seats kept, {with_none} with none");
}
