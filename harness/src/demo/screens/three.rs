//! Round 4: three layouts, and a certificate that shows more double signers than the one before it.

use super::super::round::{Certificate, Played};
use super::Screens;
use crate::reference::seats::size;
use crate::words::{and, boats, boats_of, capital, count, picture, pointed_at, signers};

impl Screens<'_> {
    pub fn three(&mut self, played: &Played) {
        self.heading("ROUND 4: A THIRD CERTIFICATE NAMES MORE BOATS");
        self.story(played);
        self.radio();
        self.collected(played);
        self.split(played);
        self.line("");
        self.notices(played);
        self.line("");
        self.prose(
            "The FULLs go round. Each carries a certificate: the signatures that its boat confirmed by. A boat compares every \
             certificate for another layout with the first one that it had. Who stands in both is a double signer. Each time that \
             this shows somebody new, the boat sends EVIDENCE.",
        );
        self.late(played);
        self.certificate_by_certificate(played, played.honest()[0]);
        self.evidence(played);
        self.outcome(played);
        self.silence(played);
    }

    fn story(&mut self, played: &Played) {
        let mut story = String::new();
        if self.n > self.options.n {
            let joined = match self.n - self.options.n {
                1 => "1 more boat joins".to_string(),
                more => format!("{more} more boats join"),
            };
            story += &format!("{joined}: the fleet has {}, and {} signatures confirm. ", self.n, self.k);
        }
        let sides = || played.sides.iter().map(|side| (boats(&side.honest), side.layout.name));
        let signs: Vec<_> = sides().map(|(boat, layout)| format!("{boat} signs layout {layout}")).collect();
        let sends: Vec<_> = sides().map(|(boat, layout)| format!("for {layout} to {boat}")).collect();
        story += &format!(
            "{}, each boat one layout, as the rule says. {} sign two layouts or all three, against the rule. They send their \
             SUBMITs {}.",
            capital(&and(&signs)),
            capital(&boats(&played.double())),
            and(&sends)
        );
        self.prose(&story);
        self.line("");
        self.layouts_signed(&played.signers());
    }

    /// The picture of a boat's first certificate, and of each one that showed somebody new, with those whom the EVIDENCE names.
    fn certificate_by_certificate(&mut self, played: &Played, seat: u32) {
        let row = |certificate: &Certificate| {
            let name = self.name(&certificate.value);
            let title = match certificate.of == seat {
                true => format!("{name}, its own"),
                false => format!("{name} of boat {}", certificate.of),
            };
            signers(title, name, certificate.seats)
        };
        let Some(first) = played.first_held(seat) else { return };
        let (mut rows, mut told) = (vec![row(&first)], Vec::new());
        for (number, pack) in (1..).zip(played.packs(seat)) {
            let named = pack.verdict.mask;
            let other = self.name(&pack.certificate.value);
            let mut both = [self.name(&first.value), other];
            both.sort();
            let (how_many, shows) = match number {
                1 => (count(size(named), "boat"), format!("The certificate for {other} shows that")),
                _ => (format!("{} more", size(named)), format!("The one for {other} shows {} more:", size(named))),
            };
            rows.extend([row(&pack.certificate), pointed_at(format!("EVIDENCE {number}"), named, how_many)]);
            told.push(format!("{shows} {} signed {} and {}.", boats_of(named), both[0], both[1]));
        }
        self.line(format!("\nBoat {seat}, certificate by certificate:\n"));
        self.text += &picture(self.n, &rows);
        self.line("");
        self.prose(&told.join(" "));
    }
}
