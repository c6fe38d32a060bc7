//! Inputs of the yard's program with their outputs, written for a person to read, in the language of data/yard/README.md.

use std::io::{Read, Write};
use std::process::{Command, Stdio};
use std::thread;

use crate::air;
use crate::compare::equal;
use crate::fleet::{self, rounds, some_layouts, some_seats, Fleet};
use crate::hex;
use crate::reference::lms::PUBLIC_KEY;
use crate::reference::messages::Value;
use crate::rng::Rng;
use crate::terms::{change, each_line, each_script, expect, number, Terms, Words};

/// An input, and the output that document 01 gives for it.
#[derive(Default)]
pub struct Run {
    /// The script's line where the input starts.
    pub title: String,
    pub input: Vec<u8>,
    pub output: String,
}

/// Compares each output of data/yard with a subject's output for its input.
pub fn all(prints: impl Fn(&[u8]) -> String) {
    each_script("yard", |text| {
        for run in runs(text)? {
            equal(&run.title, prints(&run.input), run.output)?;
        }
        Ok(())
    });
}

/// The runs of a script.
pub fn runs(text: &str) -> Result<Vec<Run>, String> {
    let mut terms = Terms::default();
    let mut runs = Vec::new();
    each_line(text, |words| line(&mut terms, &mut runs, words))?;
    Ok(runs)
}

fn line(terms: &mut Terms, runs: &mut Vec<Run>, words: &mut Words) -> Result<(), String> {
    let word = words.next().unwrap_or_default();
    match word {
        "fleet" => return terms.set_fleet(words),
        "layout" => return terms.set_layout(words),
        "input" => {
            let title = words.by_ref().collect::<Vec<_>>().join(" ");
            runs.push(Run { title, ..Run::default() });
            return Ok(());
        }
        _ => (),
    }
    let run = runs.last_mut().ok_or("no input was started")?;
    if word == "=" {
        run.output += &format!("{} {}\n", number(words)?, number(words)?);
        return Ok(());
    }
    let mut bytes = command(terms, word, words)?;
    if words.next_if_eq(&"without").is_some() {
        let missing = number(words)? as usize;
        bytes.truncate(bytes.len().checked_sub(missing).ok_or("so many bytes aren't there")?);
    }
    run.input.extend(bytes);
    Ok(())
}

/// The bytes of a command.
fn command(terms: &Terms, word: &str, words: &mut Words) -> Result<Vec<u8>, String> {
    match word {
        "opens" => {
            let mut bytes = opening(terms.fleet.n, number(words)?, terms.fleet.round, &terms.fleet.key_table());
            while let Some(word) = words.next_if_eq(&"byte") {
                change(word, words, &mut bytes)?;
            }
            Ok(bytes)
        }
        "hears" => {
            let mut message = terms.message(words)?;
            while let Some(word) = words.next_if(|&word| word == "byte" || word == "message") {
                change(word, words, &mut message)?;
            }
            Ok(hearing(&message))
        }
        "submits" => {
            let (value, hand) = terms.layout(words)?;
            expect(words, "as")?;
            Ok(submitting(&value, &terms.fleet.signature(number(words)?, &value, hand)))
        }
        "bytes" => Ok(std::iter::from_fn(|| words.next_if(|&word| word != "without")).flat_map(hex::decode).collect()),
        word => Err(format!("`{word}` isn't understood")),
    }
}

pub fn opening(n: u32, seat: u32, round: u32, keys: &[u8]) -> Vec<u8> {
    [&[0x10, n as u8, seat as u8][..], &(round as u16).to_be_bytes(), keys].concat()
}

pub fn hearing(message: &[u8]) -> Vec<u8> {
    [&[0x11][..], &(message.len() as u16).to_be_bytes(), message].concat()
}

pub fn submitting(value: &[u8], signature: &[u8]) -> Vec<u8> {
    [&[0x12][..], value, signature].concat()
}

/// An input such as a bad host may give: most are well framed for a while.
pub fn random_input(rng: &mut Rng) -> Vec<u8> {
    let fleet = Fleet { n: 1 + rng.below(7) as u32, round: *rng.pick(&rounds()) };
    let seat = rng.below(fleet.n as usize) as u32;
    let mut input = random_opening(fleet, seat, rng);
    let values: [Value; 3] = some_layouts(rng);
    for _ in 0..rng.below(16) {
        let value = &values[*rng.pick(&[0, 0, 0, 0, 1, 2])];
        let other = rng.below(fleet.n as usize) as u32;
        let message = match rng.below(4) {
            0 => fleet.notice(other, value).write(),
            1 => fleet.full(other, value, &some_seats(fleet.n, fleet.k(), rng), 0).write(),
            _ => fleet.submit(other, value, 0).write(),
        };
        input.extend(match rng.below(24) {
            0 => vec![rng.u32() as u8],
            1 => hearing(&rng.bytes(100)),
            2 | 3 => hearing(&air::garbled(&message, rng).1),
            4..=8 => submitting(value, &fleet.signature(seat, value, 0)),
            _ => hearing(&message),
        });
    }
    if rng.one_in(3) {
        input.truncate(rng.below(input.len() + 1));
    }
    input
}

/// An opening, one in three of them wrong.
fn random_opening(fleet: Fleet, seat: u32, rng: &mut Rng) -> Vec<u8> {
    let Fleet { n, round } = fleet;
    let mut keys = fleet.key_table();
    match rng.below(18) {
        0 => opening(*rng.pick(&[0, 8, 32, 255]), seat, round, &keys),
        1 => opening(n, n, round, &keys),
        2 => opening(n, seat, 1024, &keys),
        3 => opening(n, 255, 1024, &keys),
        4 => {
            keys[PUBLIC_KEY * rng.below(n as usize) + rng.below(8)] ^= 1;
            opening(n, seat, round, &keys)
        }
        5 => opening(n, seat, round, &fleet::table(n - 1)),
        _ => opening(n, seat, round, &keys),
    }
}

/// Output of a program for an input in pieces of the length.
pub fn printed(program: &mut Command, input: &[u8], piece: usize) -> String {
    let mut child = program.stdin(Stdio::piped()).stdout(Stdio::piped()).spawn().expect("the program starts");
    let (mut stdin, mut stdout) = (child.stdin.take().expect("piped"), child.stdout.take().expect("piped"));
    let mut output = String::new();
    thread::scope(|scope| {
        // A program that has ended reads no more.
        scope.spawn(move || input.chunks(piece).try_for_each(|piece| stdin.write_all(piece)));
        stdout.read_to_string(&mut output).expect("text");
    });
    assert!(child.wait().expect("a child").success());
    output
}
