//! The demonstration's numbers, from flags or by default, and the errors for numbers that make no sense.

use std::path::PathBuf;

use crate::fleet::fewest_to_split;

#[derive(Clone, Debug, PartialEq, Eq)]
pub struct Options {
    /// Boats in the fleet.
    pub n: u32,
    /// Boats that sign both layouts in round 3.
    pub double_signers: u32,
    /// Pairs of boats that don't hear each other at first.
    pub lost_links: Vec<(u32, u32)>,
    /// The boat in whose name somebody else sends a SUBMIT.
    pub forged: Option<u32>,
    /// The boat that submits before all others.
    pub early: Option<u32>,
    /// The boat whose skipper settles after the others, in round 2.
    pub slow: u32,
    /// Source of keys, layouts and randomizers.
    pub seed: u64,
    /// The folder for key tables and packs.
    pub packs: Option<PathBuf>,
}

/// The fewest boats in round 4. Each of its three layouts is signed by all boats but t0. These are the honest boats of the other two
/// layouts, and two double signers: so t0 is 4.
const FEWEST_IN_ROUND_4: u32 = 13;

pub const USAGE: &str = "\
demo [--boats N] [--slow SEAT] [--double-signers N] [--lost-link SEAT-SEAT]..
     [--forged SEAT] [--early SEAT] [--seed NUMBER] [--packs FOLDER]

Four rounds of a fleet, what its mates see, and the one pack that the harbour
office makes of the boats' evidence.

  --boats N            boats in the fleet, 2 to 32; without it 7; in round 4 the
                       fleet has 13 at least
  --slow SEAT          the boat whose skipper settles late in round 2; without it
                       the last seat that isn't early
  --double-signers N   boats that sign two layouts in round 3, the last seats;
                       from 0 up to all boats but two; without it as few as can
                       split the fleet
  --lost-link 0-3      boats 0 and 3 don't hear each other at first; may be given
                       more than once
  --forged SEAT        somebody sends a SUBMIT in the name of this boat, without
                       its key
  --early SEAT         this boat sends its SUBMIT before the others have signed
  --seed NUMBER        keys and layouts follow from it, so that a run can be
                       repeated; without it 1
  --packs FOLDER       writes the packs that the boats hand in, and the key
                       tables, to files there, for make join
  --help               this page

From make, in quotes:  make demo DEMO=\"--double-signers 2 --lost-link 0-3\"
Try first:
  --double-signers 2                 two double signers can't split seven boats
  --lost-link 0-2 --lost-link 1-2    a radio link that comes back late
  --forged 5 --early 3               a forged signature, and a boat ahead of time
  --slow 2 --lost-link 2-0 --lost-link 2-1 --lost-link 2-5
                                     a slow boat that hasn't heard enough
  --boats 10 --double-signers 5      a larger fleet
";

const FLAGS: [&str; 8] =
    ["--boats", "--slow", "--double-signers", "--lost-link", "--forged", "--early", "--seed", "--packs"];

impl Options {
    pub fn parse(words: &[String]) -> Result<Options, String> {
        let (mut n, mut double_signers, mut seed, mut packs) = (7, None, 1, None);
        let (mut lost_links, mut forged, mut early, mut slow) = (Vec::new(), None, None, None);
        for pair in words.chunks(2) {
            let flag = pair[0].as_str();
            if !FLAGS.contains(&flag) {
                return Err(format!("{flag}: no such flag"));
            }
            let what = if flag == "--packs" { "folder" } else { "number" };
            let word = pair.get(1).ok_or_else(|| format!("{flag} needs a {what}"))?;
            let number = || word.parse::<u32>().map_err(|_| format!("{flag} {word}: not a number that fits"));
            match flag {
                "--boats" => n = number()?,
                "--double-signers" => double_signers = Some(number()?),
                "--lost-link" => lost_links.push(link(word)?),
                "--forged" => forged = Some(number()?),
                "--early" => early = Some(number()?),
                "--slow" => slow = Some(number()?),
                "--packs" => packs = Some(PathBuf::from(word)),
                _ => seed = word.parse().map_err(|_| format!("{flag} {word}: not a number that fits"))?,
            }
        }
        if !(2..=32).contains(&n) {
            return Err(format!("--boats {n}: a fleet has 2 to 32 boats"));
        }
        let double_signers = double_signers.unwrap_or(fewest_to_split(n).min(n - 2));
        let slow = slow.unwrap_or(if early == Some(n - 1) { n - 2 } else { n - 1 });
        Options { n, double_signers, lost_links, forged, early, slow, seed, packs }.tested()
    }

    fn tested(self) -> Result<Options, String> {
        let Options { n, double_signers, .. } = self;
        if double_signers > n - 2 {
            return Err(format!(
                "--double-signers {double_signers}: of {n} boats two at least must be honest, so {} at most",
                n - 2
            ));
        }
        let stranger = |&seat: &u32| seat >= n;
        let no_seat = |flag: &str, word: String| Err(format!("{flag} {word}: the seats are 0 to {}", n - 1));
        if let Some((one, other)) = self.lost_links.iter().find(|(one, other)| stranger(one) || stranger(other)) {
            return no_seat("--lost-link", format!("{one}-{other}"));
        }
        for (flag, seat) in [("--forged", self.forged), ("--early", self.early), ("--slow", Some(self.slow))] {
            if let Some(seat) = seat.filter(stranger) {
                return no_seat(flag, seat.to_string());
            }
        }
        if self.early == Some(self.slow) {
            return Err(format!("--slow {}: this boat is early", self.slow));
        }
        Ok(self)
    }

    /// Boats in round 4.
    pub fn larger(&self) -> u32 {
        self.n.max(FEWEST_IN_ROUND_4)
    }

    /// Whether two boats hear each other from the start.
    pub fn linked(&self, one: u32, other: u32) -> bool {
        !self.lost_links.iter().any(|&link| link == (one, other) || link == (other, one))
    }
}

/// `0-3`.
fn link(word: &str) -> Result<(u32, u32), String> {
    let ends = word.split_once('-').and_then(|(one, other)| Some((one.parse().ok()?, other.parse().ok()?)));
    match ends {
        Some((one, other)) if one != other => Ok((one, other)),
        _ => Err(format!("--lost-link {word}: a link is between two boats, as 0-3")),
    }
}

#[cfg(test)]
mod tests {
    use super::*;
    use crate::reference::quorum::t0;

    fn parse(line: &str) -> Result<Options, String> {
        Options::parse(&line.split_whitespace().map(str::to_string).collect::<Vec<_>>())
    }

    fn plain(n: u32, double_signers: u32, seed: u64) -> Options {
        Options { n, double_signers, lost_links: vec![], forged: None, early: None, slow: n - 1, seed, packs: None }
    }

    #[test]
    fn flags_and_defaults() {
        assert_eq!(parse(""), Ok(plain(7, 3, 1)));
        assert_eq!(parse("--boats 32 --seed 9"), Ok(plain(32, 12, 9)));
        assert_eq!(parse("--double-signers 5 --boats 8"), Ok(plain(8, 5, 1)));
        assert_eq!(parse("--double-signers 0"), Ok(plain(7, 0, 1)));
        assert!((2..=32).all(|n| parse(&format!("--boats {n}")).is_ok()));
        assert_eq!(["", "--boats 12", "--boats 32"].map(|line| parse(line).unwrap().larger()), [13, 13, 32]);
        assert_eq!([12, 13].map(t0), [3, 4]);
        let radio = parse("--lost-link 0-3 --forged 6 --early 0 --lost-link 5-4").unwrap();
        assert_eq!(
            radio,
            Options { lost_links: vec![(0, 3), (5, 4)], forged: Some(6), early: Some(0), ..plain(7, 3, 1) }
        );
        assert_eq!(parse("--slow 2 --early 0"), Ok(Options { early: Some(0), slow: 2, ..plain(7, 3, 1) }));
        assert_eq!(parse("--packs there"), Ok(Options { packs: Some("there".into()), ..plain(7, 3, 1) }));
        assert_eq!(parse("--early 6"), Ok(Options { early: Some(6), slow: 5, ..plain(7, 3, 1) }));
        assert_eq!([(3, 0), (4, 5), (0, 4)].map(|(one, other)| radio.linked(one, other)), [false, false, true]);
    }

    #[test]
    fn numbers_that_make_no_sense_are_told() {
        for (line, told) in [
            ("--boats 0", "--boats 0: a fleet has 2 to 32 boats"),
            ("--boats 33", "--boats 33: a fleet has 2 to 32 boats"),
            ("--boats 4294967300", "--boats 4294967300: not a number that fits"),
            ("--boats seven", "--boats seven: not a number that fits"),
            ("--boats", "--boats needs a number"),
            ("--packs", "--packs needs a folder"),
            ("--seed -1", "--seed -1: not a number that fits"),
            ("--double-signers 6", "--double-signers 6: of 7 boats two at least must be honest, so 5 at most"),
            (
                "--double-signers 1 --boats 2",
                "--double-signers 1: of 2 boats two at least must be honest, so 0 at most",
            ),
            ("--double-signers 4294967295", "--double-signers 4294967295: of 7 boats two at least"),
            ("--lost-link 0-7", "--lost-link 0-7: the seats are 0 to 6"),
            ("--lost-link 3-3", "--lost-link 3-3: a link is between two boats, as 0-3"),
            ("--lost-link 3", "--lost-link 3: a link is between two boats, as 0-3"),
            ("--forged 7", "--forged 7: the seats are 0 to 6"),
            ("--early 7", "--early 7: the seats are 0 to 6"),
            ("--slow 7", "--slow 7: the seats are 0 to 6"),
            ("--slow 3 --early 3", "--slow 3: this boat is early"),
            ("--n 7", "--n: no such flag"),
        ] {
            let error = parse(line).unwrap_err();
            assert!(error.starts_with(told), "{line}: {error}");
        }
    }
}
