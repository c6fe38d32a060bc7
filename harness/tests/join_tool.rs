//! The harbour office's tool, run on files: what it takes and refuses, what it says and writes, and the number it ends with.
#![cfg(feature = "zolbine")]

use std::fs;
use std::path::{Path, PathBuf};
use std::process::{Command, Output};

use harness::fleet::{Fleet, HANDS};
use harness::office::options::USAGE;
use harness::reference::evidence::join_evidence;
use harness::reference::layout::{joined_out, ENTRY_SEAT_AT, EVIDENCE_ENTRIES_AT, ROUND_AT};
use harness::reference::messages::{Evidence, Value};

const FLEET: Fleet = Fleet { n: 4, round: 5 };
const A: Value = [0x11; 32];
const B: Value = [0x22; 32];
const C: Value = [0x33; 32];

/// A folder with the fleet's key table, in which the tool runs.
struct Desk(PathBuf);

impl Desk {
    fn new(name: &str) -> Desk {
        let folder = Path::new(env!("CARGO_TARGET_TMPDIR")).join(format!("join_{name}"));
        let _ = fs::remove_dir_all(&folder);
        fs::create_dir_all(&folder).unwrap();
        let desk = Desk(folder);
        desk.put("keys", &FLEET.key_table());
        desk
    }

    fn put(&self, name: &str, bytes: &[u8]) {
        fs::write(self.0.join(name), bytes).unwrap();
    }

    fn has(&self, name: &str) -> Option<Vec<u8>> {
        fs::read(self.0.join(name)).ok()
    }

    fn run(&self, line: &str) -> Output {
        let mut tool = Command::new(env!("CARGO_BIN_EXE_join"));
        tool.current_dir(&self.0).args(line.split_whitespace()).output().unwrap()
    }

    /// What it says where it ends with the number; in the end it has nothing to complain of.
    fn says(&self, line: &str, ends: i32) -> String {
        let run = self.run(line);
        assert_eq!((run.status.code(), run.stderr.as_slice()), (Some(ends), &[][..]), "{line}: {run:?}");
        String::from_utf8(run.stdout).unwrap()
    }

    /// What it complains of where it ends with 2. It then says nothing else, and writes nothing.
    fn complains(&self, line: &str) -> String {
        let run = self.run(line);
        assert_eq!((run.status.code(), run.stdout.as_slice()), (Some(2), &[][..]), "{line}: {run:?}");
        assert_eq!(self.has("one.pack"), None, "{line}");
        String::from_utf8(run.stderr).unwrap()
    }
}

/// The seats with two values, each signed by one of the hands.
fn pack(lower: &Value, higher: &Value, seats: &[u32]) -> Evidence {
    FLEET.evidence((lower, 0), (higher, HANDS - 1), seats)
}

fn by_the_reference(first: &[u8], second: &[u8]) -> Vec<u8> {
    let mut out = vec![0; joined_out(FLEET.n)];
    let answer = join_evidence(FLEET.n, FLEET.round, &FLEET.key_table(), first, second, &mut out);
    assert_eq!(answer.number, 0);
    out.truncate(answer.written as usize);
    out
}

/// 4 + 2,970 x 4 bytes. Boat 2 stands in two of the packs.
const TAKEN: &str = "\
Fleet of 4 boats, round 5: 3 packs handed in.

  a.pack  taken: it names boats 1 and 2
  b.pack  taken: it names boats 2 and 3
  c.pack  taken: it names boat 0

The one pack has 11,884 bytes, and the check accepts it. It shows that boats 0
to 3 signed two layouts in this round.

  boat 0  named by c.pack
  boat 1  named by a.pack
  boat 2  named by a.pack and b.pack; the pair of a.pack stands
  boat 3  named by b.pack

";

#[test]
fn every_pack_taken() {
    let desk = Desk::new("taken");
    let [a, b, c] = [pack(&A, &B, &[1, 2]), pack(&A, &C, &[2, 3]), pack(&B, &C, &[0])].map(|pack| pack.write());
    desk.put("a.pack", &a);
    desk.put("b.pack", &b);
    desk.put("c.pack", &c);
    let written = "The pack is written to one.pack.\n";
    assert_eq!(desk.says("--keys keys --round 5 --out one.pack a.pack b.pack c.pack", 0), format!("{TAKEN}{written}"));
    assert_eq!(desk.has("one.pack"), Some(by_the_reference(&by_the_reference(&a, &b), &c)));

    // The pack that is given first gives the pair.
    let other_order = desk.says("b.pack a.pack --keys keys --out two.pack --round 5", 0);
    assert!(
        other_order.contains("\n  boat 2  named by b.pack and a.pack; the pair of b.pack stands\n"),
        "{other_order}"
    );
    assert_eq!(desk.has("two.pack"), Some(by_the_reference(&b, &a)));

    // The joined pack can be joined again, and one pack, or one given twice, stays as it is.
    let again = desk.says("--keys keys --round 5 --out three.pack b.pack one.pack c.pack", 0);
    assert!(again.contains("\n  boat 2  named by b.pack and one.pack; the pair of b.pack stands\n"), "{again}");
    assert_eq!(desk.has("three.pack"), Some(by_the_reference(&b, &by_the_reference(&by_the_reference(&a, &b), &c))));
    for line in ["a.pack", "a.pack a.pack"] {
        desk.says(&format!("--keys keys --round 5 --out same.pack {line}"), 0);
        assert_eq!(desk.has("same.pack"), Some(a.clone()), "{line}");
    }

    // Without --out nothing is written.
    fs::remove_file(desk.0.join("one.pack")).unwrap();
    let nothing = "Nothing is written; --out FILE keeps the pack.\n";
    assert_eq!(desk.says("--keys keys --round 5 a.pack b.pack c.pack", 0), format!("{TAKEN}{nothing}"));
    // Folders are told where two files have one name.
    assert_eq!(desk.says("--keys keys --round 5 ./a.pack ./b.pack ./c.pack", 0), format!("{TAKEN}{nothing}"));
    let one_name = desk.says("--keys keys --round 5 ./a.pack a.pack", 0);
    assert!(one_name.contains("  boat 1  named by ./a.pack and a.pack; the pair of ./a.pack stands\n"), "{one_name}");
    assert_eq!(fs::read_dir(&desk.0).unwrap().count(), 4 + 3, "four files given, three written");
}

/// A pack with a byte changed.
fn with(pack: &Evidence, at: usize, byte: u8) -> Vec<u8> {
    let mut bytes = pack.write();
    bytes[at] = byte;
    bytes
}

#[test]
fn packs_refused() {
    let desk = Desk::new("refused");
    let good = pack(&A, &B, &[3]);
    let one = pack(&A, &B, &[1]);
    let signature = *one.write().last().unwrap();
    let refused = [
        ("short", one.write()[1..].to_vec(), "(9, garbled): it is no pack, or not a whole one"),
        ("nothing", Vec::new(), "(9, garbled): it is no pack, or not a whole one"),
        ("full", FLEET.full(0, &A, &[0, 1, 2], 0).write(), "(9, garbled): it is no pack, or not a whole one"),
        ("round", with(&one, ROUND_AT, 1), "(10, other round): it is of round 261"),
        (
            "seat",
            with(&one, EVIDENCE_ENTRIES_AT + ENTRY_SEAT_AT, 4),
            "(11, stranger): it names a seat that the fleet hasn't",
        ),
        ("order", pack(&A, &B, &[2, 1]).write(), "(12, disorder): its seats don't rise"),
        ("bad", with(&one, one.write().len() - 1, !signature), "(14, signature): a signature in it doesn't check"),
        ("equal", pack(&A, &A, &[1]).write(), "(15, no conflict): its two layouts are equal or out of order"),
    ];
    desk.put("good", &good.write());
    for (name, bytes, _) in &refused {
        desk.put(name, bytes);
    }
    for (name, _, told) in &refused {
        let said = desk.says(&format!("--keys keys --round 5 --out one.pack {name} good"), 1);
        let lines =
            format!("\n  {name:w$}  REFUSED {told}\n  {:w$}  taken: it names boat 3\n", "good", w = name.len().max(4));
        assert!(said.contains(&lines), "{name}: {said}");
        assert_eq!(desk.has("one.pack"), Some(good.write()), "{name}");
    }

    // All of them together, and none that is taken.
    let names: Vec<&str> = refused.iter().map(|(name, ..)| *name).collect();
    fs::remove_file(desk.0.join("one.pack")).unwrap();
    let said = desk.says(&format!("--keys keys --round 5 --out one.pack {}", names.join(" ")), 1);
    assert!(said.ends_with("\nNo pack is taken, so there is nothing to join.\n"), "{said}");
    assert_eq!((said.matches("REFUSED").count(), desk.has("one.pack")), (refused.len(), None));
}

/// Accepted by the check, and not joined: its line goes on below. It is 9 where the check refuses it too, and the check's number stands
/// beside it.
#[test]
fn a_pack_of_the_old_form() {
    let desk = Desk::new("old");
    let [old, new] = [pack(&A, &B, &[1, 2]), pack(&A, &C, &[2])];
    desk.put("old.pack", &old.write_old());
    desk.put("new.pack", &new.write());
    let told = "
  old.pack  REFUSED (9, garbled): it is of the old form, 0x05. It can be
            checked, and names boats 1 and 2, but it can't be joined
  new.pack  taken: it names boat 2
";
    let said = desk.says("--keys keys --round 5 --out one.pack old.pack new.pack", 1);
    assert!(said.contains(told) && said.contains("\n  boat 2  named by new.pack\n"), "{said}");
    assert_eq!(desk.has("one.pack"), Some(new.write()));

    desk.put("old.pack", &pack(&B, &A, &[1]).write_old());
    let told = "
  old.pack  REFUSED (9, garbled): it is of the old form, 0x05, and the check
            refuses it too (15, no conflict)
";
    let said = desk.says("--keys keys --round 5 old.pack", 1);
    assert!(said.contains(told), "{said}");
    desk.put("old.pack", &old.write_old()[..100]);
    let said = desk.says("--keys keys --round 5 old.pack", 1);
    assert!(said.contains("REFUSED (9, garbled): it is no pack, or not a whole one\n"), "{said}");
}

#[test]
fn wrong_words_and_files() {
    let desk = Desk::new("wrong");
    let good = pack(&A, &B, &[3]).write();
    desk.put("good", &good);
    desk.put("short_keys", &FLEET.key_table()[1..]);
    desk.put("no_keys", &[]);
    desk.put("many_keys", &vec![0; 33 * 56]);
    let mut other_types = FLEET.key_table();
    other_types[3] = 5;
    desk.put("other_types", &other_types);
    let table = "a key table has 56 for each of 1 to 32 boats";
    for (line, told) in [
        ("--keys short_keys --round 5 good".to_string(), format!("short_keys: 223 bytes; {table}\n")),
        ("--keys no_keys --round 5 good".to_string(), format!("no_keys: 0 bytes; {table}\n")),
        ("--keys many_keys --round 5 good".to_string(), format!("many_keys: 1848 bytes; {table}\n")),
        (
            "--keys other_types --round 5 good".to_string(),
            "other_types: a key in it isn't of types 6 and 4\n".to_string(),
        ),
        (
            "--keys keys --round 5 ./good --out good".to_string(),
            "--out good: this file is read, and would be lost\n".to_string(),
        ),
        (
            "--keys keys --round 5 good --out keys".to_string(),
            "--out keys: this file is read, and would be lost\n".to_string(),
        ),
        ("--keys keys --round 1024 good".to_string(), format!("--round 1024: rounds run from 0 to 1023\n\n{USAGE}\n")),
        ("--keys keys --round 5".to_string(), format!("no pack is given\n\n{USAGE}\n")),
    ] {
        assert_eq!(desk.complains(&line), format!("join: {told}"), "{line}");
    }
    for (line, file) in
        [("--keys nowhere --round 5 good", "nowhere"), ("--keys keys --round 5 --out one.pack good nowhere", "nowhere")]
    {
        assert!(desk.complains(line).starts_with(&format!("join: {file}: ")), "{line}");
    }
    assert_eq!((desk.has("good"), desk.has("keys")), (Some(good), Some(FLEET.key_table())));

    // What it says of the packs stands, though it can't write.
    let run = desk.run("--keys keys --round 5 --out nowhere/one.pack good");
    assert_eq!(run.status.code(), Some(2));
    assert!(String::from_utf8(run.stderr).unwrap().starts_with("join: nowhere/one.pack: "));
}

#[test]
fn the_page() {
    assert_eq!(Desk::new("page").says("--help", 0), USAGE);
    assert!(USAGE.lines().all(|line| line.len() < 80), "a line is wider than a screen");
}
