//! The last screen: the harbour office makes one pack of a round's evidence.

use super::super::round::Played;
use super::Screens;
use crate::office::Joined;
use crate::words::{boats, boats_of, count, thousands};

impl Screens<'_> {
    pub fn office(&mut self, rounds: [&Played; 2]) {
        self.heading("ONE PACK FOR THE HARBOUR OFFICE");
        self.prose(
            "The boats hand in their EVIDENCE, each its own packs, and the office joins those of a round into one, boat by boat. The \
             one pack names whoever any of them names, with a pair of signatures over two layouts. Where several packs name a boat, \
             the pair of the first stands.",
        );
        for played in rounds {
            let round = played.number;
            self.line("");
            match &played.joined {
                _ if played.evidence.is_empty() => {
                    self.line(format!("Round {round}: there is no EVIDENCE to hand in."))
                }
                Ok(Some(joined)) => self.joined(played, joined),
                Ok(None) => self.line(format!("Round {round}: no pack is accepted, so there is nothing to join.")),
                Err(fault) => self.prose(&format!("Round {round}: NOT AS PROMISED: {fault}.")),
            }
        }
    }

    /// Who is named by whom, those with the same story together, and the check of the one pack.
    fn joined(&mut self, played: &Played, joined: &Joined) {
        let mut stories: Vec<(Vec<u32>, Vec<u32>)> = Vec::new();
        for named in &joined.named {
            let mut by: Vec<u32> = named.by.iter().map(|&place| played.evidence[place].sent.from).collect();
            by.dedup();
            match stories.iter_mut().find(|(_, same)| *same == by) {
                Some((seats, _)) => seats.push(named.seat),
                None => stories.push((vec![named.seat], by)),
            }
        }
        let row = |(seats, by): &(Vec<u32>, Vec<u32>)| {
            let pair = if seats.len() == 1 { "pair" } else { "pairs" };
            let told = match by.len() {
                1 => format!("named by boat {} alone", by[0]),
                _ => format!("named by {}, with the {pair} that boat {} handed in", boats(by), by[0]),
            };
            (boats(seats), told)
        };
        self.line(format!("Round {}, {}:\n", played.number, count(played.evidence.len() as u32, "pack")));
        self.rows(&stories.iter().map(row).collect::<Vec<_>>());
        self.line("");
        let one = format!("one pack, {} bytes", thousands(joined.bytes.len()));
        self.rows(&[(one, format!("accepted: {}", boats_of(joined.seats())))]);
    }
}
