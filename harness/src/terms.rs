//! The words of the scripts in data/: fleets, layouts and messages.

use std::collections::BTreeMap;
use std::iter::Peekable;

use crate::fleet::Fleet;
use crate::hex;
use crate::reference::messages::{Evidence, Value};

/// The words of a line.
pub type Words<'a> = Peekable<std::str::SplitWhitespace<'a>>;

/// Runs every script of a folder of data/.
pub fn each_script(folder: &str, mut run: impl FnMut(&str) -> Result<(), String>) {
    let folder = format!("{}/data/{folder}", env!("CARGO_MANIFEST_DIR"));
    let files = std::fs::read_dir(&folder).expect(&folder).map(|entry| entry.expect(&folder).path());
    let mut scripts: Vec<_> = files.filter(|path| path.extension().is_some_and(|end| end == "txt")).collect();
    scripts.sort();
    assert!(!scripts.is_empty(), "no scripts in {folder}");
    for path in scripts {
        let text = std::fs::read_to_string(&path).expect("a script");
        run(&text).unwrap_or_else(|difference| panic!("{}, {difference}", path.display()));
    }
}

/// Takes each line of a script that has more than a comment, to its last word; the error names the line that isn't taken.
pub fn each_line(text: &str, mut take: impl FnMut(&mut Words) -> Result<(), String>) -> Result<(), String> {
    for (number, line) in (1..).zip(text.lines()) {
        let line = line.split('#').next().unwrap_or_default().replace(',', " , ");
        let mut words = line.split_whitespace().peekable();
        if words.peek().is_none() {
            continue;
        }
        let taken = take(&mut words).and_then(|()| match words.next() {
            None => Ok(()),
            Some(word) => Err(format!("`{word}` isn't understood")),
        });
        taken.map_err(|difference| format!("line {number}: {difference}"))?;
    }
    Ok(())
}

/// Fleet and layouts of a script's messages.
pub struct Terms {
    pub fleet: Fleet,
    layouts: BTreeMap<String, Value>,
}

impl Default for Terms {
    fn default() -> Terms {
        Terms { fleet: Fleet { n: 0, round: 0 }, layouts: BTreeMap::new() }
    }
}

impl Terms {
    /// `4 round 5`.
    pub fn set_fleet(&mut self, words: &mut Words) -> Result<(), String> {
        self.fleet.n = number(words)?;
        expect(words, "round")?;
        self.fleet.round = number(words)?;
        Ok(())
    }

    /// `A 11`.
    pub fn set_layout(&mut self, words: &mut Words) -> Result<(), String> {
        let name = words.next().ok_or("a layout has a name")?;
        let byte = |word: &str| hex::decode(word)[0];
        let mut value = [byte(words.next().ok_or("a layout has a byte")?); 32];
        value[31] = words.next().map_or(value[31], byte);
        self.layouts.insert(name.to_string(), value);
        Ok(())
    }

    /// `A`, or `A'` for the other signatures over the same layout.
    pub fn layout(&self, words: &mut Words) -> Result<(Value, u32), String> {
        let word = words.next().ok_or("a layout is missing")?;
        let (name, hand) = word.strip_suffix('\'').map_or((word, 0), |name| (name, 1));
        let value = self.layouts.get(name).ok_or_else(|| format!("no layout `{name}`"))?;
        Ok((*value, hand))
    }

    pub fn message(&self, words: &mut Words) -> Result<Vec<u8>, String> {
        let fleet = self.fleet;
        Ok(match words.next().unwrap_or_default() {
            "SUBMIT" => {
                let seat = number(words)?;
                let (value, hand) = self.layout(words)?;
                fleet.submit(seat, &value, hand).write()
            }
            "NOTICE" => {
                let seat = number(words)?;
                fleet.notice(seat, &self.layout(words)?.0).write()
            }
            "FULL" => {
                let sender = number(words)?;
                let (value, hand) = self.layout(words)?;
                expect(words, "of")?;
                fleet.full(sender, &value, &seats(words), hand).write()
            }
            "EVIDENCE" => self.evidence(words)?.write(),
            "OLD" => {
                expect(words, "EVIDENCE")?;
                self.evidence(words)?.write_old()
            }
            word => return Err(format!("`{word}` is no message")),
        })
    }

    /// `A B of 2 3`, and `A B of 2 3 A C of 5` where a seat has other values.
    fn evidence(&self, words: &mut Words) -> Result<Evidence, String> {
        let mut entries = Vec::new();
        loop {
            let (lower, higher) = (self.layout(words)?, self.layout(words)?);
            expect(words, "of")?;
            entries.extend(self.fleet.evidence((&lower.0, lower.1), (&higher.0, higher.1), &seats(words)).entries);
            if !words.peek().is_some_and(|word| self.layouts.contains_key(word.trim_end_matches('\''))) {
                return Ok(Evidence { round: self.fleet.round, entries });
            }
        }
    }
}

/// Changes a message where the word says so: `byte 36 is 02`, `byte 36 flipped`, `message of 35`.
pub fn change(word: &str, words: &mut Words, message: &mut Vec<u8>) -> Result<bool, String> {
    match word {
        "byte" => {
            let at = number(words)? as usize;
            match words.next().unwrap_or_default() {
                "flipped" => message[at] ^= 1,
                "is" => message[at] = hex::decode(words.next().ok_or("a byte is missing")?)[0],
                word => return Err(format!("`{word}`: a byte is set by `is` or it is `flipped`")),
            }
        }
        "message" => message.resize(length(words)?, 0),
        _ => return Ok(false),
    }
    Ok(true)
}

pub fn number(words: &mut Words) -> Result<u32, String> {
    let word = words.next().unwrap_or_default();
    word.parse().map_err(|_| format!("`{word}` is no number"))
}

pub fn expect(words: &mut Words, expected: &str) -> Result<(), String> {
    words.next_if_eq(&expected).map(|_| ()).ok_or_else(|| format!("`{expected}` is missing"))
}

/// `03ff`, and `11*32` for the same byte 32 times.
pub fn bytes(word: &str) -> Vec<u8> {
    match word.split_once('*') {
        Some((byte, times)) => hex::decode(byte).repeat(times.parse().expect("a number of times")),
        None => hex::decode(word),
    }
}

/// `of LENGTH`.
pub fn length(words: &mut Words) -> Result<usize, String> {
    expect(words, "of")?;
    Ok(number(words)? as usize)
}

/// `2 5 7`, and `0-20` for all from 0 to 20.
pub fn seats(words: &mut Words) -> Vec<u32> {
    let range = |word: &str| {
        let (first, last) = word.split_once('-').unwrap_or((word, word));
        Some((first.parse().ok()?, last.parse().ok()?))
    };
    let mut seats = Vec::new();
    while let Some((first, last)) = words.peek().and_then(|word| range(word)) {
        let run: std::ops::RangeInclusive<u32> = first..=last;
        seats.extend(run);
        words.next();
    }
    seats
}
