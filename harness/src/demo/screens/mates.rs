//! The mate's display at each stage.

use super::super::round::Played;
use super::{signed, Screens};
use crate::reference::record::Record;
use crate::reference::seats::{list, size};
use crate::words::{lines, seats};

impl Screens<'_> {
    /// The displays at each stage.
    pub fn mates(&mut self, sound: &Played, apart: &Played, three: &Played) {
        self.heading("WHAT THE MATE SEES");
        self.line("What a display can say at each stage, by what its unit knows:\n");
        let shown = [(sound, 0), (apart, 0), (apart, 1)].map(|(played, side)| (played, played.sides[side].honest[0]));
        let at = |of: &dyn Fn(&Played, u32) -> Record| shown.map(|(played, seat)| of(played, seat));
        let mut stages = vec![
            ("it has signed", at(&|played, seat| signed(played, seat).after)),
            ("SUBMITs heard", at(&|played, seat| *played.submits.record(seat))),
            ("NOTICEs heard", at(&|played, seat| *played.notices.record(seat))),
        ];
        if !apart.fulls.events.is_empty() {
            stages.push(("FULLs heard", at(&|played, seat| *played.fulls.record(seat))));
        }
        if !self.options.lost_links.is_empty() {
            stages.push(("links back", at(&|played, seat| *played.late.record(seat))));
        }
        let row = |title: &str, [one, two, three]: [String; 3]| {
            format!("  {title:14}{one:17}{two:24}{three}").trim_end().to_string()
        };
        self.line(row("", shown.map(|(played, seat)| format!("round {}, boat {seat}", played.number))));
        for (stage, records) in &stages {
            self.line(row(stage, records.map(|record| self.display(&record))));
        }
        self.line("");
        self.names_more(three, three.honest()[0]);
        self.line("");
        self.meanings(&stages.iter().flat_map(|(_, records)| *records).collect::<Vec<_>>());
    }

    /// A display that names more boats with each EVIDENCE.
    fn names_more(&mut self, played: &Played, seat: u32) {
        self.line(format!("  {:14}round {}, boat {seat}", "", played.number));
        for pack in played.packs(seat) {
            let layout = self.name(&pack.certificate.value);
            let stage = if pack.certificate.of == seat { "confirms" } else { "FULL for" };
            self.line(format!("  {:14}{}", format!("{stage} {layout}"), self.display(&pack.after)));
        }
    }

    /// A display's text for a record.
    fn display(&self, record: &Record) -> String {
        if record.guilty != 0 {
            return format!("DOUBLE SIGNERS {}", seats(&list(record.guilty)));
        }
        let name = self.name(&record.own.value);
        let status = match record.confirmed {
            true => format!("{name} CONFIRMED"),
            false => format!("{name} {} of {}", size(record.own.collected), self.k),
        };
        match self.spoken_of(record) {
            Some(other) => format!("{status}, {other}?"),
            None => status,
        }
    }

    /// Another layout than the own one that a NOTICE or FULL spoke of.
    fn spoken_of(&self, record: &Record) -> Option<char> {
        let other = record.notices.heard == 2 || record.notices.heard == 1 && record.notices.value != record.own.value;
        let [a, b, _] = self.layouts.map(|layout| layout.name);
        other.then(|| if self.name(&record.own.value) == a { b } else { a })
    }

    /// Meaning of each kind of display for the mate.
    fn meanings(&mut self, seen: &[Record]) {
        let any = |kind: &dyn Fn(&Record) -> bool| seen.iter().any(kind);
        let calm = |record: &Record| record.guilty == 0 && self.spoken_of(record).is_none();
        let told = |record: &Record| record.guilty == 0 && self.spoken_of(record).is_some();
        let guilty = seen.iter().map(|record| record.guilty).max().unwrap_or_default();
        let meanings = [
            (
                any(&|record| calm(record) && !record.confirmed),
                format!("A 1 of {}", self.k),
                "wait: no gear goes out yet",
            ),
            (any(&|record| calm(record) && record.confirmed), "A CONFIRMED".to_string(), "gear may go out by A"),
            (
                any(&|record| told(record) && record.confirmed),
                "A CONFIRMED, B?".to_string(),
                "somebody says that B is confirmed. That proves nothing yet: hold the gear and call the others",
            ),
            (
                any(&|record| told(record) && !record.confirmed),
                format!("B {} of {}, A?", self.k - 1, self.k),
                "wait: no gear goes out by B. Somebody says that A is confirmed",
            ),
            (
                guilty != 0,
                format!("DOUBLE SIGNERS {}", seats(&list(guilty))),
                "these boats signed two layouts, and more may come to light. Keep all evidence, which shows it to anyone; \
                 hold the gear and call the honest boats",
            ),
        ];
        let mut rows = Vec::new();
        for (_, display, means) in meanings.into_iter().filter(|(shown, ..)| *shown) {
            let displays = std::iter::once(display).chain(std::iter::repeat(String::new()));
            rows.extend(displays.zip(lines(means, 50)));
        }
        self.rows(&rows);
    }
}
