//! The mother ship of examples/mother_ship.c: eight rounds of a fleet of 7 through the dispatcher, without a flood in one of them
//! and with it.
#![cfg(feature = "zolbine")]

use std::collections::BTreeMap;
use std::path::{Path, PathBuf};
use std::process::Command;

use harness::c_program::{compile, compiler, file, SANITIZED};
use harness::compare::progress;

const RECORDED: &str = "examples/eight_rounds.bin";
const NOISY: u32 = 258;

/// A column of the table that the example prints.
#[derive(Debug, PartialEq)]
struct Column {
    /// Of each round that confirms: the turn, and how many turns of its own that took.
    confirmed: BTreeMap<u32, (u32, u32)>,
    longest_wait: u32,
    /// A message of the noisy round waits at every turn up to this one.
    busy: u32,
    taken_in: u32,
    sent: u32,
}

impl Column {
    fn turns(&self, round: u32) -> Result<(u32, u32), String> {
        self.confirmed.get(&round).copied().ok_or(format!("{round} doesn't confirm"))
    }
}

/// Rows below those of the rounds.
const TOTALS: [&str; 4] =
    ["longest wait, in turns of others", "noisy round waits at turns 1 to", "taken in of the flood", "messages sent"];

/// The rounds in the table's order, which is that of the lanes, and its columns.
struct Table {
    rounds: Vec<u32>,
    silent: Column,
    usual: Column,
    flooded: Column,
}

impl Table {
    fn read(printed: &str) -> Table {
        let (_, table) = printed.split_once("\n\n").expect("words, then a table");
        let rows: Vec<(&str, [&str; 3])> = table.lines().map(row).collect();
        assert_eq!(rows[0], ("round", ["silent", "usual", "flooded"]));
        let (of_rounds, totals) = rows[1..].split_at(8);
        assert_eq!(totals.iter().map(|row| row.0).collect::<Vec<_>>(), TOTALS);
        let column = |place: usize| {
            let cells = of_rounds.iter().map(|(round, cells)| (number(round), cells[place]));
            let confirmed = cells.filter_map(|(round, cell)| Some((round, turns(cell)?))).collect();
            let [longest_wait, busy, taken_in, sent] = [0, 1, 2, 3].map(|row| number(totals[row].1[place]));
            Column { confirmed, longest_wait, busy, taken_in, sent }
        };
        let rounds = of_rounds.iter().map(|(round, _)| number(round)).collect();
        Table { rounds, silent: column(0), usual: column(1), flooded: column(2) }
    }

    /// The rounds that aren't flooded.
    fn others(&self) -> Vec<u32> {
        self.rounds.iter().copied().filter(|&round| round != NOISY).collect()
    }

    /// "One noisy round keeps the others waiting" no more, counted in turns. Whose turn it is goes by the lanes that wait and the
    /// order in which they were served, and not by how many tickets a lane has. So while a message waits in the noisy round's lane
    /// with and without the flood, all turns go to the same lanes, and each of the others confirms in the very turn in which it
    /// does without the flood. Beside a lane that would be empty a flood costs turns: one at most for each own turn, since the
    /// noisy lane, once served, comes after every lane that waits.
    fn as_soon_as_without_the_flood(&self) -> Result<(), String> {
        let columns = [&self.silent, &self.usual, &self.flooded];
        for round in self.others() {
            let (silent, _) = self.silent.turns(round)?;
            let (usual, (turn, own_turns)) = (self.usual.turns(round)?, self.flooded.turns(round)?);
            if usual.0 > self.usual.busy.min(self.flooded.busy) {
                return Err(format!("nothing waits in the noisy round when {round} confirms, in turn {}", usual.0));
            }
            if (turn, own_turns) != usual {
                return Err(format!("{round} confirms in turn {turn}, and in turn {} without the flood", usual.0));
            }
            if turn > silent + own_turns {
                return Err(format!("{round} confirms in turn {turn}, and in turn {silent} beside an empty lane"));
            }
            // Of these rounds too a message waits at every turn until they confirm.
            if turn > (7 + 1) * own_turns {
                return Err(format!("{round} has {own_turns} turns of its own by turn {turn}"));
            }
        }
        let waits = columns.map(|column| column.longest_wait);
        match waits.iter().all(|&wait| wait <= 7) {
            true => Ok(()),
            false => Err(format!("a lane with a ticket waits through {waits:?} turns of other lanes")),
        }
    }
}

/// A row's title and its cells.
fn row(line: &str) -> (&str, [&str; 3]) {
    let (title, cells) = line.split_at(32);
    (title.trim(), [0, 11, 22].map(|start| cells[start..start + 11].trim()))
}

fn number(text: &str) -> u32 {
    text.parse().unwrap_or_else(|_| panic!("`{text}` is no number"))
}

/// A turn and, in brackets, a round's own turns.
fn turns(cell: &str) -> Option<(u32, u32)> {
    let (turn, own_turns) = cell.strip_suffix(')')?.split_once(" (")?;
    Some((number(turn), number(own_turns)))
}

fn expected() -> String {
    std::fs::read_to_string(file("examples/mother_ship.txt")).expect("the expected output")
}

fn compiled(name: &str, flags: &[&str]) -> PathBuf {
    let program = Path::new(env!("CARGO_TARGET_TMPDIR")).join(name);
    compile(compiler(false), "examples/mother_ship.c", &program, flags);
    program
}

/// Output of a run that ends well, with nothing to say for whatever watches it.
fn printed(mut command: Command, recorded: &Path) -> String {
    let run = command.arg(recorded).output().expect("the example runs");
    let words = String::from_utf8_lossy(&run.stderr);
    assert!(run.status.success() && run.stderr.is_empty(), "{command:?}: {words}");
    String::from_utf8(run.stdout).expect("text")
}

/// The expected turns, worked out from document 02's item 6. A round confirms with k = 5 signatures: the ship's own and four more.
///
/// Usual: two boats speak before turn 1, and one more before each of the turns 9, 17, 25 and 33, once in every round. So a lane
/// starts with two tickets, and in each eight turns it gives one and gets one: it has a ticket at each of the turns 1 to 40.
/// "Never served counts as longest, and among those the lowest round goes first": turns 1 to 8 go to the rounds rising. "The
/// waiting lane served longest ago": so do 9 to 16, and so on. The round with r others below it has its fourth turn in turn
/// 3 x 8 + r + 1, its sixth and last in turn 5 x 8 + r + 1.
///
/// Silent: seven lanes take turns, and r is counted without the round in which nobody speaks. The fourth turn is 3 x 7 + r + 1. The
/// third message and the fourth are there in time, before the turns 9 and 17.
///
/// Flooded: the noisy round, too, has a ticket at each of the turns 1 to 40, so all of these go to the same rounds as usual. Its
/// lane has room for 16 of the flood before turn 1, and for one more after each of its five turns before turn 40: 21. Its sixth
/// turn is one of 41 to 48, in which the others have their last; boat 1's SUBMIT takes the place. From turn 49 on it waits alone.
/// 15 of the flood are left and have the turns 49 to 63, and after each of the first five the next boat's SUBMIT finds room.
/// Boats 1, 2 and 3 have the turns 64, 65 and 66. The flood began with a good SUBMIT of boat 6, so that boat 3's is the fifth
/// signature: 21 + 3 turns of its own. Three more messages follow, up to turn 69.
///
/// The longest wait is through one turn of each other lane. The ship sends SUBMIT and NOTICE in each round, and no NOTICE where it
/// doesn't confirm.
#[test]
fn the_expected_output_is_the_documents() {
    let table = Table::read(&expected());
    let below = |round: u32, rounds: &[u32]| rounds.iter().filter(|&&other| other < round).count() as u32;
    let confirmed = |rounds: &[u32]| -> BTreeMap<u32, (u32, u32)> {
        let lanes = rounds.len() as u32;
        rounds.iter().map(|&round| (round, (3 * lanes + below(round, rounds) + 1, 4))).collect()
    };
    let silent = confirmed(&table.others());
    assert_eq!(table.silent, Column { confirmed: silent, longest_wait: 6, busy: 0, taken_in: 0, sent: 8 + 7 });
    let mut confirmed = confirmed(&table.rounds);
    let busy = 5 * 8 + below(NOISY, &table.rounds) + 1;
    assert_eq!(table.usual, Column { confirmed: confirmed.clone(), longest_wait: 7, busy, taken_in: 0, sent: 8 + 8 });
    confirmed.insert(NOISY, (66, 21 + 3));
    assert_eq!(table.flooded, Column { confirmed, longest_wait: 7, busy: 69, taken_in: 16 + 5, sent: 8 + 8 });
    assert_eq!(table.as_soon_as_without_the_flood(), Ok(()));
}

#[test]
fn a_flooded_round_keeps_no_other_waiting_under_the_sanitizers() {
    let program = compiled("mother_ship_sanitized", &SANITIZED);
    let fresh = Path::new(env!("CARGO_TARGET_TMPDIR")).join("eight_rounds.bin");
    let made = Command::new(env!("CARGO_BIN_EXE_eight_rounds")).output().expect("the rounds of the run's seed");
    std::fs::write(&fresh, &made.stdout).expect("a file for the rounds");
    assert_eq!(made.stdout.len(), std::fs::read(file(RECORDED)).expect("the recorded rounds").len());
    for recorded in [file(RECORDED), fresh] {
        let printed = printed(Command::new(&program), &recorded);
        assert_eq!(printed, expected(), "{}", recorded.display());
        assert_eq!(Table::read(&printed).as_soon_as_without_the_flood(), Ok(()));
    }
}

/// The archive's own reads and writes are seen by valgrind alone.
#[test]
fn a_flooded_round_under_valgrind() {
    if Command::new("valgrind").arg("--version").output().is_err() {
        progress("valgrind isn't installed: the mother ship runs under the sanitizers alone");
        return;
    }
    let mut valgrind = Command::new("valgrind");
    valgrind.args(["--quiet", "--error-exitcode=9", "--leak-check=full"]).arg(compiled("mother_ship", &["-g"]));
    assert_eq!(printed(valgrind, &file(RECORDED)), expected());
}

/// The same ship with one queue of 128 places in place of the dispatcher. A message has its turn when all before it have had
/// theirs: the j-th that is let in has turn j.
///
/// Silent and usual: each boat's messages stand in the order of the lanes. Lane i, counted from 0, has its fourth in turn
/// 3 x 8 + i + 1, or 3 x 7 + i + 1 with i counted without the noisy round.
///
/// Flooded: 20 of the flood are let in before turn 1, then 16 of the boats 1 and 2. Before each later turn 20 more of the flood
/// come first, and a turn frees one place: from turn 6 on the queue is full, and boat 3 finds no place until the flood is over.
/// When turn 40 comes 39 have had their turn and 128 wait: 167, of which 151 are the flood's. Then the boats 3 to 6 are let in, one
/// message after each turn. Boat 3's of lane i is number 168 + i; boat 4's is number 176 + i, and with it the round confirms. The
/// noisy round, in lane 6, has boat 6's from the flood and confirms with boat 3's, number 174: 151 + 3 turns of its own. Who takes
/// the last place waits through 127 turns.
#[test]
fn one_queue_keeps_the_others_waiting() {
    let queue = file("harness/c/one_queue.h");
    let flags = [&SANITIZED[..], &["-include", queue.to_str().expect("a path")]].concat();
    let printed = printed(Command::new(compiled("mother_ship_one_queue", &flags)), &file(RECORDED));
    let table = Table::read(&printed);
    let from = |first: u32, rounds: &[u32]| -> BTreeMap<u32, (u32, u32)> {
        rounds.iter().zip(first..).map(|(&round, turn)| (round, (turn, 4))).collect()
    };
    assert_eq!(table.silent.confirmed, from(22, &table.others()), "{printed}");
    assert_eq!(table.usual.confirmed, from(25, &table.rounds), "{printed}");
    let mut flooded = from(176, &table.rounds);
    flooded.insert(NOISY, (174, 154));
    assert_eq!(table.flooded.confirmed, flooded, "{printed}");
    let columns = [&table.silent, &table.usual, &table.flooded];
    assert_eq!(columns.map(|column| column.longest_wait), [6, 7, 127], "{printed}");
    assert_eq!(columns.map(|column| column.taken_in), [0, 0, 151], "{printed}");
    let late = "257 confirms in turn 176, and in turn 25 without the flood";
    assert_eq!(table.as_soon_as_without_the_flood(), Err(late.into()));
}
