//! The office's files and round, from the words of a command line.

use std::path::PathBuf;

use crate::reference::calls::MAX_LEAF;

#[derive(Clone, Debug, PartialEq, Eq)]
pub struct Options {
    /// The file of the fleet's key table.
    pub keys: PathBuf,
    pub round: u32,
    /// The file for the joined pack.
    pub out: Option<PathBuf>,
    pub packs: Vec<PathBuf>,
}

pub const USAGE: &str = "\
join --keys TABLE --round R [--out FILE] PACK..

Makes one pack of evidence of those that the boats of a fleet handed in for one
round. Each pack is checked alone first. One that is refused is told with its
number, and left out. It says who is named, by which packs, and whose pair of
signatures stands in the one pack: of several packs that name a boat, the one
that is given first.

  --keys TABLE   the fleet's public keys, seat after seat, 56 bytes each
  --round R      the round, 0 to 1023
  --out FILE     writes the one pack there; without it nothing is written
  PACK           a file with one pack, an EVIDENCE as a boat sent it
  --help         this page

It ends with 0 if every pack was taken, with 1 if some were refused, and with 2
for words that it doesn't understand or files that it can't read or write.

From make, in quotes; the files are looked for from the folder of the Makefile:
  make join JOIN=\"--keys fleet.keys --round 3 --out one.pack a.pack b.pack\"
";

impl Options {
    pub fn parse(words: &[String]) -> Result<Options, String> {
        let (mut keys, mut round, mut out, mut packs) = (None, None, None, Vec::new());
        let mut words = words.iter();
        while let Some(word) = words.next() {
            let mut next = || words.next().ok_or_else(|| format!("{word} needs a word after it"));
            match word.as_str() {
                "--keys" => once(word, &mut keys, PathBuf::from(next()?))?,
                "--round" => {
                    let number = next()?;
                    let right = number.parse().ok().filter(|number| *number <= MAX_LEAF);
                    once(word, &mut round, right.ok_or(format!("--round {number}: rounds run from 0 to {MAX_LEAF}"))?)?;
                }
                "--out" => once(word, &mut out, PathBuf::from(next()?))?,
                flag if flag.starts_with("--") => return Err(format!("{flag}: no such flag")),
                pack => packs.push(PathBuf::from(pack)),
            }
        }
        if packs.is_empty() {
            return Err("no pack is given".to_string());
        }
        let missing = |flag: &str| format!("{flag} is missing");
        Ok(Options { keys: keys.ok_or(missing("--keys"))?, round: round.ok_or(missing("--round"))?, out, packs })
    }
}

fn once<T>(flag: &str, place: &mut Option<T>, value: T) -> Result<(), String> {
    match place.replace(value) {
        None => Ok(()),
        Some(_) => Err(format!("{flag} is given twice")),
    }
}

#[cfg(test)]
mod tests {
    use super::*;

    fn parse(line: &str) -> Result<Options, String> {
        Options::parse(&line.split_whitespace().map(str::to_string).collect::<Vec<_>>())
    }

    #[test]
    fn flags_and_packs_in_any_order() {
        let plain = Options { keys: "k".into(), round: 3, out: None, packs: vec!["a".into()] };
        assert_eq!(parse("--keys k --round 3 a"), Ok(plain.clone()));
        let packs = vec!["a".into(), "b".into(), "a".into()];
        let all = Options { out: Some("o".into()), packs, ..plain };
        assert_eq!(parse("a --out o b --round 3 --keys k a"), Ok(all));
    }

    #[test]
    fn words_that_make_no_sense_are_told() {
        for (line, told) in [
            ("", "no pack is given"),
            ("--keys k --round 3", "no pack is given"),
            ("--round 3 a", "--keys is missing"),
            ("--keys k a", "--round is missing"),
            ("--keys k --round 1024 a", "--round 1024: rounds run from 0 to 1023"),
            ("--keys k --round -1 a", "--round -1: rounds run from 0 to 1023"),
            ("--keys k --round three a", "--round three: rounds run from 0 to 1023"),
            ("a --keys k --round", "--round needs a word after it"),
            ("a --keys k --round 3 --out", "--out needs a word after it"),
            ("--keys k --keys l --round 3 a", "--keys is given twice"),
            ("--keys k --round 3 --force a", "--force: no such flag"),
        ] {
            assert_eq!(parse(line), Err(told.to_string()), "{line}");
        }
    }
}
