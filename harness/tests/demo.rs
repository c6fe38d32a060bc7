//! The demonstration over the proved code: word for word the held screens, as promised for every option, and an error where a
//! call answers otherwise.
#![cfg(feature = "zolbine")]

use std::sync::OnceLock;

use harness::confirmer::{Engine, EvidenceCheck, Joining};
use harness::demo::options::Options;
use harness::demo::{boats, told_by, Boat, Calls, HandedIn, Told};
use harness::library::Library;
use harness::parallel;
use harness::reference::record::{Opened, Record, Stepped, Verdict, Written};

const LIBRARY: Calls = Calls { signatures: &Library, engine: &Library, evidence: &Library, joining: &Library };

/// As many boats as round 4 has; a smaller fleet has the first of them.
fn fleet() -> &'static [Boat] {
    static BOATS: OnceLock<Vec<Boat>> = OnceLock::new();
    BOATS.get_or_init(|| boats(LIBRARY, 13, 1))
}

fn run(calls: Calls, flags: &str) -> Told {
    let words: Vec<String> = flags.split_whitespace().map(str::to_string).collect();
    let options = Options::parse(&words).unwrap();
    told_by(calls, fleet(), &options)
}

/// A held file is what `demo` prints with its flags.
#[test]
fn six_sets_of_screens() {
    for (flags, held) in [
        ("", include_str!("../data/demo/seven.txt")),
        ("--double-signers 2", include_str!("../data/demo/two_double_signers.txt")),
        ("--lost-link 0-2 --lost-link 1-2", include_str!("../data/demo/lost_links.txt")),
        ("--forged 5 --early 3", include_str!("../data/demo/forged_and_early.txt")),
        ("--slow 2 --lost-link 2-0 --lost-link 2-1 --lost-link 2-5", include_str!("../data/demo/slow_and_lost.txt")),
        ("--boats 10 --double-signers 5", include_str!("../data/demo/ten.txt")),
    ] {
        let Told { text, faults, .. } = run(LIBRARY, flags);
        assert_eq!(text, held, "{flags}");
        assert!(faults.is_empty(), "{flags}: {faults:?}");
        assert!(text.lines().all(|line| line.len() < 80), "{flags}: a line is wider than a screen");
    }
}

/// By the screens: in round 3 boats 0 to 3 write a pack each, in round 4 boats 0 to 2 write two each.
#[test]
fn files_for_the_office() {
    let rounds = run(LIBRARY, "").handed_in;
    let names: Vec<&str> = rounds.iter().flat_map(|round| &round.packs).map(|(name, _)| name.as_str()).collect();
    let third = (0..4).map(|seat| format!("round-3-boat-{seat}-1.pack"));
    let fourth = (0..3).flat_map(|seat| (1..3).map(move |place| format!("round-4-boat-{seat}-{place}.pack")));
    assert_eq!(names, third.chain(fourth).collect::<Vec<_>>());
    for (HandedIn { round, keys, packs }, (n, named)) in rounds.iter().zip([(7, 0b111_0000), (13, 0x1ff8)]) {
        assert_eq!((keys.0.as_str(), keys.1.len()), (format!("round-{round}.keys").as_str(), 56 * n as usize));
        let verdicts = packs.iter().map(|(_, pack)| Library.check_evidence(n, *round, &keys.1, pack));
        let union =
            verdicts.fold(0, |union, Verdict { number, mask }| if number == 0 { union | mask } else { panic!() });
        assert_eq!(union, named, "round {round}");
    }
    assert!(run(LIBRARY, "--double-signers 2").handed_in.iter().all(|handed| handed.round == 4), "nothing in round 3");
}

#[test]
fn all_is_as_promised_for_any_number_of_double_signers() {
    let fleets = [2, 3, 4, 5, 7].into_iter().flat_map(|n| (0..=n - 2).map(move |double| (n, double)));
    let radios = ["", "--lost-link 0-1 --forged 1", "--early 0 --lost-link 1-0", "--slow 0 --forged 0"];
    let cases: Vec<String> = fleets
        .flat_map(|(n, double)| radios.map(|radio| format!("--boats {n} --double-signers {double} {radio}")))
        .collect();
    parallel::map(&cases, |flags| {
        let faults = run(LIBRARY, flags).faults;
        assert!(faults.is_empty(), "{flags}: {faults:?}");
    });
}

/// A boat that hears nobody at first.
#[test]
fn all_is_as_promised_after_a_lost_boat() {
    let links: String = (1..7).map(|seat| format!(" --lost-link 0-{seat}")).collect();
    for double in [0, 2, 3, 5] {
        let faults = run(LIBRARY, &format!("--double-signers {double}{links} --forged 0 --early 4 --slow 0")).faults;
        assert!(faults.is_empty(), "{double}: {faults:?}");
    }
}

/// Boat 0 lacks a signature when the FULLs go round: so it holds boat 2's certificate, and its own is the third.
#[test]
fn a_third_certificate_that_is_the_own_one() {
    let Told { text, faults, .. } = run(LIBRARY, "--lost-link 0-5");
    assert!(faults.is_empty(), "{faults:?}");
    for told in [
        "
    boat           0  1  2  3  4  5  6  7  8  9 10 11 12
    C of boat 2    .  .  C  C  C  C  C  .  .  C  C  C  C   9 boats
    B of boat 1    .  B  .  B  B  .  .  B  B  B  B  B  B   9 boats
    EVIDENCE 1              ^  ^              ^  ^  ^  ^   6 boats
    A, its own     A  .  .  .  .  A  A  A  A  A  A  A  A   9 boats
    EVIDENCE 2                    ^  ^                     2 more

The certificate for B shows that boats 3, 4 and 9 to 12 signed B and C. The one
for A shows 2 more: boats 5 and 6 signed A and C.
",
        "
  boat 0  hears SUBMIT of boat 5 for A: CONFIRMED, sends NOTICE, FULL and
          EVIDENCE
",
        "
  EVIDENCE 2 of boat 0, 5,944 bytes   accepted: boats 5 and 6
",
        "
  FULL for B    DOUBLE SIGNERS 3, 4 and 9 to 12
  confirms A    DOUBLE SIGNERS 3 to 6 and 9 to 12
",
    ] {
        assert!(text.contains(told), "{told}{text}");
    }
}

/// A check of evidence with another verdict.
struct Verdicts(fn(Verdict) -> Verdict);

impl EvidenceCheck for Verdicts {
    fn check_evidence(&self, n: u32, round: u32, keys: &[u8], evidence: &[u8]) -> Verdict {
        self.0(Library.check_evidence(n, round, keys, evidence))
    }
}

#[test]
fn evidence_counts_by_the_checks_verdict_alone() {
    let refused = Verdicts(|_| Verdict { number: 14, mask: 0 });
    let honest_named = Verdicts(|verdict| Verdict { mask: verdict.mask | 1, ..verdict });
    let too_few = Verdicts(|verdict| Verdict { mask: verdict.mask & (verdict.mask - 1), ..verdict });
    for (check, told, joined) in [
        (refused, "0 of 4 honest boats hold evidence", 0),
        (honest_named, "HONEST BOATS ARE NAMED: boat 0.", 2),
        (too_few, "0 of 4 honest boats hold evidence", 2),
    ] {
        let Told { text, faults, .. } = run(Calls { evidence: &check, ..LIBRARY }, "");
        assert!(text.contains(told), "{text}");
        // Four honest boats in round 3 with an EVIDENCE each, three in round 4 with two: each EVIDENCE isn't accepted as it should be,
        // and each boat names others than it can show, and too few at first. In each of the two rounds the one pack holds others
        // than the check names, but for packs that are all refused.
        assert_eq!(faults.len(), 4 + 3 * 2 + 2 * (4 + 3) + joined, "{faults:?}");
    }
}

type Join = fn(u32, u32, &[u8], &[u8], &[u8], &mut [u8]) -> Written;

/// Packs joined in another way.
struct Joins(Join);

impl Joining for Joins {
    fn join_evidence(&self, n: u32, round: u32, keys: &[u8], first: &[u8], second: &[u8], out: &mut [u8]) -> Written {
        self.0(n, round, keys, first, second, out)
    }
}

/// In round 3 all packs are the same. In round 4 the packs of boat 0 and boat 1 have different pairs of boat 9.
#[test]
fn an_office_that_joins_otherwise_is_told() {
    let refuses = Joins(|_, _, _, _, _, _| Written { number: 9, written: 0 });
    let drops_the_second =
        Joins(|n, round, keys, first, _, out| Library.join_evidence(n, round, keys, first, first, out));
    let second_first =
        Joins(|n, round, keys, first, second, out| Library.join_evidence(n, round, keys, second, first, out));
    let refused = "the pack of boat 1 was accepted, and isn't joined (9)";
    let dropped = "the packs name boats 3 to 12, and of the one pack the check says number 0, mask 0x1f80";
    let turned = "boat 9 hasn't the pair of the first pack that names it";
    for (joining, faults) in [
        (refuses, vec![(3, refused), (4, "the pack of boat 0 was accepted, and isn't joined (9)")]),
        (drops_the_second, vec![(4, dropped)]),
        (second_first, vec![(4, turned)]),
    ] {
        let told = run(Calls { joining: &joining, ..LIBRARY }, "");
        let expected: Vec<String> =
            faults.iter().map(|(round, fault)| format!("round {round}: at the harbour office, {fault}")).collect();
        assert_eq!(told.faults, expected);
        assert_eq!(told.text.matches("NOT AS PROMISED").count(), faults.len(), "{}", told.text);
    }
}

/// A step with another record given, and with another answer.
struct Steps {
    given: fn(Record) -> Record,
    answer: fn(Record, Stepped) -> Stepped,
}

impl Engine for Steps {
    fn open(&self, n: u32, seat: u32, round: u32, keys: &[u8]) -> Opened {
        Library.open(n, seat, round, keys)
    }

    fn submit(
        &self,
        record: Record,
        keys: &[u8],
        store: &mut [u8],
        value: &[u8],
        signature: &[u8],
        out: &mut [u8],
    ) -> Stepped {
        Library.submit(record, keys, store, value, signature, out)
    }

    fn step(&self, record: Record, keys: &[u8], store: &mut [u8], message: &[u8], out: &mut [u8]) -> Stepped {
        (self.answer)(record, Library.step((self.given)(record), keys, store, message, out))
    }
}

#[test]
fn an_engine_that_answers_otherwise_is_told() {
    let answers = |answer| Steps { given: |record| record, answer };
    let silent = answers(|_, stepped| Stepped { written: 0, ..stepped });
    let takes_all = answers(|_, stepped| Stepped { number: 0, ..stepped });
    let unconfirmed =
        answers(|_, stepped| Stepped { record: Record { confirmed: false, ..stepped.record }, ..stepped });
    let keeps_none = answers(|_, stepped| Stepped { record: Record { kept: 0, ..stepped.record }, ..stepped });
    let names_once = answers(|before, stepped| match before.guilty {
        0 => stepped,
        _ => Stepped { written: 0, record: before, ..stepped },
    });
    let names_all_again = Steps { given: |record| Record { guilty: 0, ..record }, answer: |_, stepped| stepped };
    for (engine, flags, told) in [
        (silent, "", "round 3: boat 0 holds no evidence that the check accepts"),
        (takes_all, "--forged 1", "round 1: boat 0 answers 0 to SUBMIT of boat 1, and not 14"),
        (unconfirmed, "--double-signers 2", "round 1: boat 0 answers 4 to SUBMIT of boat 5, and not 0"),
        (keeps_none, "", "round 2: boat 6 has kept enough and doesn't confirm"),
        (names_once, "", "round 4: boat 0 names boats 7 to 12, and its certificates show boats 5 to 12"),
        (
            names_all_again,
            "",
            "round 4: boat 0 has found boats 5 and 6, and of its evidence the check says number 0, mask 0x1e60",
        ),
    ] {
        let faults = run(Calls { engine: &engine, ..LIBRARY }, flags).faults;
        assert!(faults.iter().any(|fault| fault == told), "{flags}: {faults:?}");
    }
}
