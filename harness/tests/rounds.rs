//! The rounds of data/rounds, whose answers were worked out from the documents by hand.

use harness::confirmer::Reference;
use harness::reference::layout::{evidence, SUBMIT};
use harness::script::{self, Calls};

const REFERENCE: Calls<'static> = Calls {
    engine: &Reference,
    evidence: &Reference,
    making: &Reference,
    joining: &Reference,
    lower: &Reference,
    notes: &Reference,
    dispatching: &Reference,
};

#[test]
fn on_the_reference() {
    script::all(REFERENCE);
}

/// The lower certificate through its probe.
#[cfg(all(feature = "zolbine", feature = "probes"))]
#[test]
fn on_the_library() {
    use harness::library::Library;
    script::all(Calls {
        engine: &Library,
        evidence: &Library,
        making: &Library,
        joining: &Library,
        lower: &Library,
        notes: &Library,
        dispatching: &Library,
    });
}

#[test]
fn a_wrong_answer_is_told() {
    let opening = "fleet 4 round 5\nlayout A 11\n0 opens\n= 0\n";
    let conflict = "layout B 22\n0 hears FULL 1 A of 1-3\n= 0 0\n0 hears FULL 1 B of 1-3\n";
    let followed = "follow 3 2 4 5 6 7 8 1\n= 0\nticket 8 in 3\n= 0\n";
    let cases: [(&str, u32); 19] = [
        (&format!("0 submits A\n= 0 {} SUBMIT 0 A", SUBMIT - 1), 6),
        (&format!("0 submits A\n= 0 {SUBMIT} SUBMIT 0 A'"), 6),
        ("0 submits A\n= 8 0", 6),
        ("0 hears NOTICE 1 A\n= 0 0\n0 has nothing", 7),
        ("0 submits A\n0 submits A", 6),
        ("check EVIDENCE A A of 1\n= 14", 6),
        ("check OLD EVIDENCE A A of 1\n= 14", 6),
        (&format!("{conflict}= 0 {} OLD EVIDENCE A B of 1-3", evidence(3)), 9),
        (&format!("{conflict}= 0 {} EVIDENCE A B of 1-2 B A of 3", evidence(3)), 9),
        ("lower NOTICE 1 A and NOTICE 1 A\n= first", 6),
        ("layout B 22\njoin EVIDENCE A B of 1 and EVIDENCE A B' of 1\n= 0 2974 EVIDENCE A B' of 1", 7),
        ("layout B 22\njoin EVIDENCE B A of 1 and NOTICE 1 A\n= 9 0", 7),
        ("0 notes\n= 0 118", 6),
        ("0 notes\n= 0 118 bytes 20 04 00 0005 00*112 01", 6),
        ("0 comes back\n= 0", 5),
        (&format!("{followed}turn\n= 0 ticket 8 of 2"), 10),
        (&format!("{followed}turn\n= 0 none"), 10),
        (&format!("{followed}ticket 8 in 9\n= 19"), 10),
        (&format!("{followed}lanes have 0 1 0 0 0 0 0 0"), 9),
    ];
    for (rest, line) in cases {
        let told = script::run(&format!("{opening}{rest}"), REFERENCE).unwrap_err();
        assert!(told.starts_with(&format!("line {line}: ")), "{rest}: {told}");
    }
}
