//! Every planted fault is caught by its battery, and an edit that changes no meaning is not.

use std::panic::{catch_unwind, set_hook, take_hook, AssertUnwindSafe};

use harness::compare::engine::{self, culprits, kept, lists, opening, power, records, refusals};
use harness::compare::{
    check_signature, dispatcher, evidence, framing, hashes, joining, make_key, making, notes, progress, sign,
};
use harness::confirmer::Reference;
use harness::script;
use mutants::{Mutant, Subject};

const OF_THE_CONFIRMER: [&str; 14] = [
    "culprits",
    "dispatcher",
    "evidence",
    "framing",
    "joining",
    "kept",
    "lists",
    "making",
    "notes",
    "opening",
    "power",
    "records",
    "refusals",
    "rounds",
];
const OF_SIGNATURES: [&str; 3] = ["check", "make_key", "sign"];
const OF_SHA256: [&str; 3] = ["compressions", "digests", "round_constants"];

fn batteries(subject: Subject) -> &'static [&'static str] {
    match subject {
        Subject::Confirmer(_) => &OF_THE_CONFIRMER,
        Subject::Calls(_) => &OF_SIGNATURES,
        Subject::Sha256(_) => &OF_SHA256,
    }
}

fn run(battery: &str, subject: Subject) {
    match subject {
        Subject::Confirmer(confirmer) => {
            let engine = engine::Subject { engine: confirmer, lent: confirmer, notes: confirmer };
            match battery {
                "culprits" => culprits::battery(engine),
                "dispatcher" => dispatcher::battery(confirmer),
                "evidence" => evidence::battery(confirmer),
                "framing" => framing::battery(confirmer),
                "joining" => joining::battery(joining::Subject { joining: confirmer, evidence: confirmer }),
                "kept" => kept::battery(engine),
                "lists" => lists::battery(engine),
                "making" => making::battery(making::Subject { making: confirmer, lower: Some(confirmer) }),
                "notes" => notes::battery(confirmer),
                "opening" => opening::battery(confirmer),
                "power" => power::battery(engine),
                "records" => records::battery(engine),
                "refusals" => refusals::battery(engine),
                "rounds" => script::all(script::Calls {
                    engine: confirmer,
                    evidence: confirmer,
                    making: confirmer,
                    joining: confirmer,
                    lower: confirmer,
                    notes: confirmer,
                    dispatching: confirmer,
                }),
                _ => unreachable!(),
            }
        }
        Subject::Calls(calls) => match battery {
            "check" => check_signature::battery(calls),
            "make_key" => make_key::battery(calls),
            "sign" => sign::battery(calls),
            _ => unreachable!(),
        },
        Subject::Sha256(subject) => match battery {
            "compressions" => hashes::compressions(subject),
            "digests" => hashes::digests(subject),
            "round_constants" => hashes::round_constants(subject),
            _ => unreachable!(),
        },
    }
}

/// The confirmer's batteries let the reference itself pass; those of signatures have an edit that changes no meaning.
#[test]
fn faults_are_caught() {
    for battery in OF_THE_CONFIRMER {
        run(battery, Subject::Confirmer(&Reference));
    }
    for battery in OF_SIGNATURES.iter().chain(&OF_SHA256) {
        assert!(mutants::ALL.iter().any(|mutant| mutant.harmless && mutant.battery == *battery), "{battery}");
    }
    for Mutant { fault, battery, subject, .. } in mutants::ALL {
        assert!(batteries(subject).contains(&battery), "{fault}: no battery {battery} for its file");
    }
    // No message for a caught fault.
    set_hook(Box::new(|_| ()));
    let mut wrong = Vec::new();
    for mutant in mutants::ALL {
        let caught = catch_unwind(AssertUnwindSafe(|| run(mutant.battery, mutant.subject))).is_err();
        let told = match (caught, mutant.harmless) {
            (true, false) => "caught",
            (false, false) => "MISSED",
            (true, true) => "CAUGHT, and harmless",
            (false, true) => "harmless and passed",
        };
        progress(&format!("{told} by {}: {}", mutant.battery, mutant.fault));
        if caught == mutant.harmless {
            wrong.push(format!("{told} by {}: {}", mutant.battery, mutant.fault));
        }
    }
    let _ = take_hook();
    assert!(wrong.is_empty(), "{wrong:#?}");
}
