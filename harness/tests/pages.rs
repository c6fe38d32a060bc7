//! Lengths, places, names and refusals in docs/HOST.md, docs/PROTOCOL.md and README.md against the header and the reference; and
//! that the gate's test of docs/STATEMENTS.md asks for the row of each refusal.

use std::mem::offset_of;
use std::process::Command;

use harness::reference::layout;
use harness::reference::messages::{EVIDENCE, EVIDENCE_ENTRY, OLD_EVIDENCE, OLD_EVIDENCE_ENTRY};
use harness::reference::note::{CONFIRMED, ONE_HEARD, SENT, SUBMITTED, TWO_HEARD};
use harness::reference::quorum::{k, t0};
use harness::reference::record::{Dispatched, Dispatcher, Opened, Record, Stepped, Turn};

const HEADER: &str = include_str!("../../include/zolbine.h");
const HOST: &str = include_str!("../../docs/HOST.md");
const PROTOCOL: &str = include_str!("../../docs/PROTOCOL.md");

/// The cells of a row of a table.
fn cells(line: &str) -> Option<impl Iterator<Item = &str>> {
    Some(line.strip_prefix('|')?.strip_suffix('|')?.split('|').map(str::trim))
}

/// A row whose cells are all numbers.
fn numbers(line: &str) -> Option<Vec<usize>> {
    cells(line)?.map(|cell| cell.replace(',', "").parse().ok()).collect()
}

#[test]
fn lengths_by_n() {
    let rows: Vec<Vec<usize>> = HOST.lines().filter_map(numbers).collect();
    assert_eq!(rows.len(), 32);
    for (n, row) in (1..).zip(rows) {
        let messages = [layout::full(k(n)), layout::evidence(n)];
        let lengths = [layout::store(n), layout::out(n), layout::evidence_out(n)];
        let thresholds = [n, t0(n), k(n)].map(|number| number as usize);
        assert_eq!(row, [&thresholds[..], &lengths[..], &messages[..]].concat());
    }
}

/// The places that PROTOCOL gives a name of the header.
#[test]
fn places() {
    let places = [
        ("ROUND_AT", layout::ROUND_AT),
        ("SEAT_AT", layout::SEAT_AT),
        ("VALUE_AT", layout::VALUE_AT),
        ("FULL_COUNT_AT", layout::FULL_COUNT_AT),
        ("EVIDENCE_COUNT_AT", layout::EVIDENCE_COUNT_AT),
        ("OLD_EVIDENCE_COUNT_AT", layout::OLD_EVIDENCE_COUNT_AT),
    ];
    for (name, at) in places {
        assert!(PROTOCOL.contains(&format!("| {at} (`ZOLBINE_{name}`) |")), "{name} isn't {at}");
    }
}

/// EVIDENCE in PROTOCOL, in both forms: command, length, and the parts of an entry one after another.
#[test]
fn evidence() {
    let page = PROTOCOL.replace(',', "");
    let signatures = [layout::SIGNATURE; 2];
    let forms = [
        (EVIDENCE, EVIDENCE_ENTRY, layout::evidence as fn(u32) -> usize, vec![layout::VALUE; 2]),
        (OLD_EVIDENCE, OLD_EVIDENCE_ENTRY, layout::old_evidence, vec![]),
    ];
    for (command, entry_command, length, values) in forms {
        let (head, entry) = (length(0), length(1) - length(0));
        let section = page.split("\n### ").find(|section| section.contains(&format!("| 0 | 1 | {command:#04x} |")));
        let section = section.unwrap_or_else(|| panic!("no section on {command:#04x}"));
        assert!(section.lines().next().unwrap().contains(&format!("EVIDENCE {head} + {entry} × count bytes")));
        let mut at = head;
        for part in [vec![1, 1], values, signatures.to_vec()].concat() {
            assert!(section.contains(&format!("| {at} + {entry} × i | {part} |")), "{part} bytes at {at}: {section}");
            at += part;
        }
        assert_eq!(at, length(1));
        assert!(section.contains(&format!("| {head} + {entry} × i | 1 | {entry_command:#04x}")), "{section}");
        let count = head - 1;
        assert!(page.contains(&format!("| {command:#04x} | {head} + {entry} × the byte at {count} |")));
    }
}

/// The bytes that a unit of HOST keeps in a round, for n of 7 and of 32.
#[test]
fn kept_in_a_round() {
    let row = |title: &str| {
        let line = HOST.lines().find(|line| line.starts_with(title)).unwrap_or_else(|| panic!("no row {title}"));
        let cells: Vec<&str> = cells(line).expect("a row").collect();
        [cells[cells.len() - 2], cells[cells.len() - 1]].map(|cell| cell.replace(',', "").parse::<usize>().unwrap())
    };
    let written = [7, 32].map(|n| layout::out(n) + t0(n) as usize * layout::EVIDENCE_ENTRIES_AT);
    assert_eq!(row("| bytes to send, of the whole round |"), written);
    let all = [7, 32].map(|n| layout::NOTE + layout::store(n));
    assert_eq!(row("| in all, without number and checksum |"), [all[0] + written[0], all[1] + written[1]]);
}

/// PROTOCOL has a row for each field: its name, its place and its length.
fn stand(fields: &[(&str, usize, usize)]) {
    for (name, at, length) in fields {
        assert!(PROTOCOL.contains(&format!("| {at} | {length} | `{name}` |")), "{name} isn't {length} bytes at {at}");
    }
}

/// The record's fields and length, as in PROTOCOL; those of the answers, as in HOST.
#[test]
fn record() {
    let fields = [
        ("own.submitted", offset_of!(Record, own.submitted), 1),
        ("own.value", offset_of!(Record, own.value), 32),
        ("own.collected", offset_of!(Record, own.collected), 4),
        ("notices.heard", offset_of!(Record, notices.heard), 4),
        ("notices.value", offset_of!(Record, notices.value), 32),
        ("first.value", offset_of!(Record, first.value), 32),
        ("first.seats", offset_of!(Record, first.seats), 4),
        ("confirmed", offset_of!(Record, confirmed), 1),
        ("sent", offset_of!(Record, sent), 1),
        ("guilty", offset_of!(Record, guilty), 4),
        ("kept", offset_of!(Record, kept), 4),
    ];
    stand(&fields);
    let lengths = [size_of::<Record>(), size_of::<Opened>(), size_of::<Stepped>()];
    assert_eq!(lengths, [140, 144, 148]);
    assert!(PROTOCOL.contains("It has 140 bytes and is aligned to 4"));
    assert!(HEADER.contains("It has 140 bytes and is aligned to 4"));
    assert!(HOST.contains("`struct zolbine_opened` has 144 and `struct zolbine_stepped` 148"));
}

/// The dispatcher's fields and length, as in PROTOCOL; those of the answers, as in HOST.
#[test]
fn dispatcher() {
    let fields = [
        ("rounds", offset_of!(Dispatcher, rounds), 32),
        ("counts", offset_of!(Dispatcher, counts), 32),
        ("heads", offset_of!(Dispatcher, heads), 32),
        ("served", offset_of!(Dispatcher, served), 4),
        ("order", offset_of!(Dispatcher, order), 32),
        ("tickets", offset_of!(Dispatcher, tickets), 256),
    ];
    stand(&fields);
    let lengths = [size_of::<Dispatcher>(), size_of::<Dispatched>(), size_of::<Turn>()];
    assert_eq!(lengths, [388, 392, 404]);
    for page in [HEADER, PROTOCOL] {
        assert!(page.contains("It has 388 bytes, without padding, and is aligned to 4"));
    }
    assert!(HOST.contains("`struct zolbine_dispatched` has 392 and `struct zolbine_turn` 404"));
}

/// The note's places and flags.
#[test]
fn note() {
    let parts = [
        (0, 1, "0x20"),
        (layout::NOTE_N_AT, 1, "number of boats"),
        (layout::NOTE_SEAT_AT, 1, "own seat"),
        (layout::NOTE_ROUND_AT, 2, "round"),
        (layout::NOTE_FLAGS_AT, 1, "flags"),
        (layout::NOTE_OWN_AT, 32, "own layout"),
        (layout::NOTE_MASKS_AT, 4, "seats collected"),
        (layout::NOTE_MASKS_AT + 4, 4, "seats kept"),
        (layout::NOTE_MASKS_AT + 8, 4, "seats of the first certificate"),
        (layout::NOTE_MASKS_AT + 12, 4, "guilty seats"),
        (layout::NOTE_HEARD_AT, 32, "first layout heard"),
        (layout::NOTE_FIRST_AT, 32, "layout of the first certificate"),
    ];
    let mut end = 0;
    for (at, length, name) in parts {
        assert_eq!(at, end, "{name}");
        assert!(PROTOCOL.contains(&format!("| {at} | {length} | {name}")), "{name} isn't {length} bytes at {at}");
        end += length;
    }
    assert_eq!(end, layout::NOTE);
    for page in [HOST, PROTOCOL] {
        assert!(page.contains("118 bytes"));
    }
    let flags = [
        (SUBMITTED, "own.submitted"),
        (CONFIRMED, "confirmed"),
        (SENT, "sent"),
        (ONE_HEARD, "notices.heard` is 1"),
        (TWO_HEARD, "notices.heard` is 2"),
    ];
    for (flag, name) in flags {
        let row = PROTOCOL.lines().find(|line| line.starts_with(&format!("| {flag} | ")) && line.contains(name));
        assert!(row.is_some(), "{name} isn't the flag {flag}");
    }
}

/// The store's length and places.
#[test]
fn store() {
    for page in [HOST, PROTOCOL] {
        assert!(page.contains("4,388 × n"));
    }
    for row in ["| 1,452 × s |", "| 1,452 × (n + s) |", "| 1,452 × (2 × n + s) |", "| 4,356 × n + 32 × s |"] {
        assert!(PROTOCOL.contains(row), "{row}");
    }
    for (n, s) in (1..=32).flat_map(|n| (0..n).map(move |s| (n, s))) {
        let slots = [layout::collected(s), layout::first(n, s), layout::kept(n, s), layout::kept_value(n, s)];
        let [seats, seat] = [n, s].map(|number| number as usize);
        let stated = [1452 * seat, 1452 * (seats + seat), 1452 * (2 * seats + seat), 4356 * seats + 32 * seat];
        assert_eq!(slots.map(|slot| slot.start), stated);
        assert_eq!(layout::store(n), 4388 * seats);
    }
}

fn words(text: &str) -> impl Iterator<Item = &str> {
    text.split(|letter: char| !letter.is_ascii_alphanumeric() && letter != '_')
}

#[test]
fn names_of_the_header() {
    for page in [HOST, PROTOCOL, include_str!("../../README.md")] {
        for name in words(page).filter(|word| word.starts_with("zolbine_") || word.starts_with("ZOLBINE_")) {
            assert!(words(HEADER).any(|word| word == name), "the header has no {name}");
        }
    }
}

/// Both tables have every refusal, in the order in which they count, by the header's word and number, and tell of one that no longer
/// occurs.
#[test]
fn refusals() {
    use harness::reference::refusals;
    let enumerators: Vec<&str> =
        HEADER.lines().filter_map(|line| line.split([',', '/']).next()).map(str::trim).collect();
    for page in [HOST, PROTOCOL] {
        let rows = page.lines().skip_while(|line| !line.starts_with("| No. | Word |")).skip(2);
        let rows: Vec<Vec<&str>> = rows.map_while(cells).map(Iterator::collect).collect();
        let numbers: Vec<u32> = rows.iter().map(|row| row[0].parse().expect("a number")).collect();
        for (number, row) in numbers.iter().zip(&rows) {
            // The header's FULL is the command.
            let word = if *number == 19 { "full lane" } else { row[1] };
            let name = word.replace(' ', "_").to_uppercase();
            assert_eq!(row[2].starts_with("retired"), *number == 13, "{name}");
            assert!(enumerators.contains(&format!("ZOLBINE_{name} = {number}").as_str()), "{name} isn't {number}");
            assert!(*number == 13 || row[1] == refusals::word(*number), "{name}");
        }
        let occurring: Vec<u32> = numbers.into_iter().filter(|&number| number != 13).collect();
        assert_eq!(occurring, refusals::ORDER);
    }
}

/// `scripts/statements.sh` on docs/STATEMENTS.md with the row of one number under another word: it says which number has no row.
#[test]
fn statements_ask_for_each_number() {
    let root = concat!(env!("CARGO_MANIFEST_DIR"), "/..");
    let whole = std::fs::read_to_string(format!("{root}/docs/STATEMENTS.md")).expect("the page");
    let page = std::env::temp_dir().join(format!("zolbine-statements-{}.md", std::process::id()));
    let said = |text: &str| {
        std::fs::write(&page, text).expect("a page to try");
        let tried = Command::new("scripts/statements.sh").arg(&page).current_dir(root).output().expect("the script");
        (tried.status.success(), String::from_utf8_lossy(&tried.stdout).into_owned())
    };
    let (passes, complaints) = said(&whole);
    assert!(passes, "{complaints}");
    for number in 1..=19 {
        let row = format!("\n| {number} ");
        assert_eq!(whole.matches(&row).count(), 1, "a row of {number}");
        let (passes, complaints) = said(&whole.replace(&row, &format!("{row}un")));
        assert!(!passes && complaints.contains(&format!("no row of number {number}, ")), "{number}: {complaints}");
    }
    std::fs::remove_file(page).expect("the page tried");
}
