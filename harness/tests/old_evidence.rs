//! Evidence made before document 02's item 3, by the command 0x05: each answer of the check is the one given then, and none is joined.

use std::collections::BTreeSet;

use harness::confirmer::{EvidenceCheck, Joining, Reference};
use harness::reference::layout::joined_out;
use harness::reference::record::Written;
use harness::vectors::{old_evidence, Pack};

fn answered_as_then(subject: &dyn EvidenceCheck) {
    for Pack { what, n, round, keys, evidence, answer } in old_evidence() {
        assert_eq!(subject.check_evidence(n, round, &keys, &evidence), answer, "{what}");
    }
}

/// "a 0x05 pack is 9 here", whatever the check says of it.
fn not_joined(subject: &dyn Joining) {
    for Pack { what, n, round, keys, evidence, .. } in old_evidence() {
        let mut out = vec![0; joined_out(n)];
        let answer = subject.join_evidence(n, round, &keys, &evidence, &evidence, &mut out);
        assert_eq!(answer, Written { number: 9, written: 0 }, "{what}");
    }
}

#[test]
fn by_the_reference() {
    answered_as_then(&Reference);
    not_joined(&Reference);
}

#[cfg(feature = "zolbine")]
#[test]
fn by_the_library() {
    answered_as_then(&harness::library::Library);
    not_joined(&harness::library::Library);
}

/// The file has packs that were taken in fleets of several sizes, and others for each refusal that looks into a pack.
#[test]
fn of_each_answer() {
    let packs = old_evidence();
    assert!(packs.iter().all(|pack| pack.answer.number == 9 || pack.evidence[0] == 0x05));
    let taken: BTreeSet<u32> = packs.iter().filter(|pack| pack.answer.number == 0).map(|pack| pack.n).collect();
    assert_eq!(taken, BTreeSet::from([1, 2, 4, 7, 32]));
    let numbers: BTreeSet<u32> = packs.iter().map(|pack| pack.answer.number).collect();
    assert_eq!(numbers, BTreeSet::from([0, 9, 10, 11, 12, 14, 15]));
    assert!(packs.iter().all(|pack| (pack.answer.number == 0) == (pack.answer.mask != 0)));
}
