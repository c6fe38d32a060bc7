//! The example's unit in a round that is flooded with forged SUBMITs before it submits.
#![cfg(feature = "zolbine")]

use std::path::Path;
use std::process::Command;

use harness::c_program::{compile, compiler, SANITIZED};
use harness::fleet::{self, layouts, rounds, Fleet};
use harness::reference::layout::{NOTICE, SEAT_AT, SIGNATURE, SIGNATURE_AT, SUBMIT};
use harness::reference::messages::{signed_bytes, Submit, Value};
use harness::rng::{seed, Rng};
use harness::yard::{hearing, opening, submitting};

const FLEET: Fleet = Fleet { n: 7, round: 5 };

/// More than there are seats in the largest fleet.
const FORGED: usize = 40;

/// A SUBMIT of the seat that it didn't sign for this round.
fn forged(seat: u32, value: &Value, rng: &mut Rng) -> Vec<u8> {
    let Fleet { n, round } = FLEET;
    let own = signed_bytes(round, seat, value);
    let neighbour = (seat + 1) % n;
    let signature = match rng.below(5) {
        // Random bytes under the right leaf and types.
        0 => {
            let mut signature = FLEET.signature(seat, value, 0);
            signature[8..].copy_from_slice(&rng.bytes(SIGNATURE - 8));
            signature
        }
        // A bit turned.
        1 => {
            let mut signature = FLEET.signature(seat, value, 0);
            signature[rng.below(SIGNATURE)] ^= 1 << rng.below(8);
            signature
        }
        // The neighbour's, over the same bytes and over its own.
        2 => fleet::sign(neighbour, round, &own, 0),
        3 => FLEET.signature(neighbour, value, 0),
        // The seat's own key under the leaf of another round.
        _ => {
            let other = rounds().into_iter().find(|&other| other != round).expect("several rounds");
            fleet::sign(seat, other, &own, 0)
        }
    };
    Submit { round, seat, value: *value, signature }.write()
}

const REFUSED: &str = "SUBMIT: 14\n";
const KEPT: &str = "SUBMIT: 0\n  kept for the own submit\n";
const TAKEN: &str = "SUBMIT: 0\n";

/// Messages to boat 0 before its submit, with what comes of each: forged SUBMITs of each seat, and the good ones in the middle of
/// the flood.
fn flood(value: &Value, rng: &mut Rng) -> Vec<(Vec<u8>, &'static str)> {
    let of_each_seat = |rng: &mut Rng| {
        let seats = (0..FORGED).flat_map(|_| FLEET.seats());
        seats.map(|seat| (forged(seat, value, rng), REFUSED)).collect::<Vec<_>>()
    };
    let mut heard = of_each_seat(rng);
    heard.extend((1..FLEET.n).rev().map(|seat| (FLEET.submit(seat, value, 0).write(), KEPT)));
    // A good one again: the seat's place is taken.
    heard.push((FLEET.submit(1, value, 1).write(), TAKEN));
    heard.extend(of_each_seat(rng));
    heard
}

/// A forged one is refused by 14, and the first good one of a seat is kept; a second good one is taken and changes nothing. So the
/// unit has a signature of every other seat when it submits, and confirms in that call.
#[test]
fn forged_submits_take_nobodys_place() {
    let Fleet { n, round } = FLEET;
    let value = layouts()[5];
    let heard = flood(&value, &mut Rng::new(seed(), "flood"));
    let mut input = opening(n, 0, round, &FLEET.key_table());
    let mut expected = format!("open n {n}, seat 0, round {round}: 0\n");
    for (message, comes_of_it) in heard {
        assert_eq!(message.len(), SUBMIT);
        assert_eq!(
            comes_of_it == KEPT,
            message[SIGNATURE_AT..] == FLEET.signature(message[SEAT_AT].into(), &value, 0),
            "a forged one is none"
        );
        input.extend(hearing(&message));
        expected += comes_of_it;
    }
    input.extend(submitting(&value, &FLEET.signature(0, &value, 0)));
    expected += &format!("submit: 0\n  sends SUBMIT, {SUBMIT} bytes\n  sends NOTICE, {NOTICE} bytes\n");
    expected += "confirmed; double signers 0x00000000\n";

    let folder = Path::new(env!("CARGO_TARGET_TMPDIR"));
    let (program, round) = (folder.join("unit_flooded"), folder.join("flooded.bin"));
    compile(compiler(false), "examples/unit.c", &program, &SANITIZED);
    std::fs::write(&round, input).expect("a file for the round");
    let run = Command::new(program).arg(round).output().expect("the example runs");
    assert!(run.status.success(), "{}", String::from_utf8_lossy(&run.stderr));
    let printed = String::from_utf8(run.stdout).expect("text");
    for (number, (is, expected)) in (1..).zip(printed.lines().zip(expected.lines())) {
        assert_eq!(is, expected, "line {number} with ZOLBINE_SEED={}", seed());
    }
    assert_eq!(printed.len(), expected.len());
}
