//! The demonstration's screens: the text of each, from the rounds as they were played.

mod mates;
mod office;
mod three;

use super::boat::Answer;
use super::expected::{holds, is_split};
use super::options::Options;
use super::round::{Event, Given, Layout, Pack, Played, Sent, Side, Stage};
use crate::air;
use crate::fleet::fewest_to_split;
use crate::reference::layout::{SIGNED, VALUE_AT};
use crate::reference::quorum::k;
use crate::reference::record::Record;
use crate::reference::seats::{list, mask, size};
use crate::words::{and, boats, boats_of, capital, count, lines, picture, pointed_at, rows, signers, thousands, WIDTH};

/// The text so far, about a fleet of n boats.
pub struct Screens<'a> {
    options: &'a Options,
    layouts: [Layout; 3],
    n: u32,
    /// The signatures that confirm.
    k: u32,
    /// The fewest boats that two sets of k share.
    shared: u32,
    text: String,
}

impl<'a> Screens<'a> {
    pub fn of(options: &'a Options, layouts: [Layout; 3], [sound, slow, apart, three]: [&Played; 4]) -> String {
        let about = |n| Screens { options, layouts, n, k: k(n), shared: fewest_to_split(n), text: String::new() };
        let (mut screens, mut larger) = (about(options.n), about(options.larger()));
        screens.introduction();
        screens.sound(sound);
        screens.slow(slow);
        screens.apart(apart);
        larger.three(three);
        screens.text += &larger.text;
        screens.mates(sound, apart, three);
        screens.office([apart, three]);
        screens.text
    }

    fn line(&mut self, line: impl AsRef<str>) {
        self.text.push_str(line.as_ref());
        self.text.push('\n');
    }

    fn heading(&mut self, title: &str) {
        self.line(format!("\n\n{title}\n"));
    }

    /// Prose, in lines of the width.
    fn prose(&mut self, words: &str) {
        for line in lines(words, WIDTH) {
            self.line(line);
        }
    }

    fn rows(&mut self, of: &[(String, String)]) {
        self.text += &rows(of);
    }

    fn name(&self, value: &[u8]) -> char {
        self.layouts.iter().find(|layout| layout.value == value).map_or('?', |layout| layout.name)
    }

    fn introduction(&mut self) {
        let Screens { n, k, shared, .. } = *self;
        let last = n - 1;
        self.prose(&format!(
            "A fleet of {n} boats is to shoot its gear by one layout. Each boat has a seat, 0 to {last}. In a round every boat \
             signs the layout that it means to shoot by, once, and tells the others. When a boat has {k} signatures for its own \
             layout, its own among them, its display says CONFIRMED. Only then does its gear go out."
        ));
        self.line("");
        self.prose(&format!(
            "Why {k} of {n}? Take any {k} boats that sign layout A and any {k} that sign layout B: {shared} boats or more stand \
             in both."
        ));
        self.line("");
        let from_to = |first: u32, end: u32| mask(&(first..end).collect::<Vec<_>>());
        self.layouts_signed(&[from_to(0, k), from_to(n - k, n)]);
        self.line("");
        self.prose(&format!(
            "So two mates can see different layouts confirmed only if {shared} boats sign both. Such a boat is a double signer. \
             {} can't do it. {shared} can, and nothing prevents that; but their own signatures then show who they are, and \
             never name an honest boat.",
            count(shared - 1, "double signer"),
        ));
        self.line("");
        self.line("The boats tell each other four things:\n");
        let told = format!("the {k} signatures that I confirmed it by");
        self.rows(
            &[
                ("SUBMIT", "my layout, with my signature"),
                ("NOTICE", "I have confirmed this layout"),
                ("FULL", &told),
                ("EVIDENCE", "boats that signed two layouts, with both signatures of each"),
            ]
            .map(|(name, means)| (name.to_string(), means.to_string())),
        );
    }

    fn sound(&mut self, played: &Played) {
        self.heading("ROUND 1: A SOUND FLEET");
        self.prose("Every boat signs layout A and sends its SUBMIT to all others.");
        self.radio();
        self.message_by_message(played, 0);
        self.agreed(played);
    }

    fn slow(&mut self, played: &Played) {
        let seat = self.options.slow;
        self.heading("ROUND 2: A SLOW BOAT");
        self.prose(&format!(
            "Every boat signs layout A again, but the skipper of boat {seat} settles late: the SUBMITs of the others come in before \
             boat {seat} has signed. It checks them and keeps the good ones, and they count as soon as it signs."
        ));
        self.radio();
        self.message_by_message(played, 0);
        let settled = signed(played, seat);
        self.line("");
        self.prose(&match settled.after.confirmed {
            true => {
                format!("Boat {seat} confirms the moment its skipper settles. No SUBMIT has to be sent to it again.")
            }
            false => format!(
                "Boat {seat} has kept {}, and needs {} to confirm at once. It waits for more.",
                size(settled.before.kept),
                self.k - 1
            ),
        });
        self.agreed(played);
    }

    /// A round in which all boats want layout A, from the signatures collected to its end.
    fn agreed(&mut self, played: &Played) {
        self.collected(played);
        self.line("");
        self.notices(played);
        self.late(played);
        self.line("");
        let confirmed = played.late.records.iter().filter(|record| record.confirmed).count();
        let mates = if confirmed as u32 == self.n { " Every mate may shoot." } else { "" };
        self.line(format!("{confirmed} of {} boats have confirmed layout A.{mates}", self.n));
        self.silence(played);
    }

    fn apart(&mut self, played: &Played) {
        self.heading(&match played.double().len() {
            0 => "ROUND 3: THE MATES WANT DIFFERENT LAYOUTS".to_string(),
            1 => "ROUND 3: 1 BOAT SIGNS TWO LAYOUTS".to_string(),
            double => format!("ROUND 3: {double} BOATS SIGN TWO LAYOUTS"),
        });
        self.who_signs_what(played);
        self.radio();
        for side in 0..2 {
            self.message_by_message(played, side);
        }
        self.collected(played);
        self.split(played);
        self.line("");
        self.notices(played);
        self.fulls(played);
        self.late(played);
        self.evidence(played);
        self.outcome(played);
        self.silence(played);
    }

    fn who_signs_what(&mut self, played: &Played) {
        let signs = |seats: &[u32]| if seats.len() == 1 { "signs" } else { "sign" };
        let [left, right] = [0, 1].map(|side| &played.sides[side].honest);
        let mut story = format!(
            "{} {} layout A and {} {} layout B, each boat one layout, as the rule says.",
            capital(&boats(left)),
            signs(left),
            boats(right),
            signs(right)
        );
        let double = played.double();
        match double.len() {
            0 => story += " Nobody signs both.",
            number => {
                story += &format!(
                    " {} {} both, against the rule. {} the SUBMIT for A to {} and the one for B to {}.",
                    capital(&boats(&double)),
                    signs(&double),
                    if number == 1 { "It sends" } else { "They send" },
                    boats(left),
                    boats(right)
                )
            }
        }
        self.prose(&story);
        self.line("");
        self.layouts_signed(&played.signers());
    }

    /// The picture of who signs which layout; of two layouts those in both.
    fn layouts_signed(&mut self, signed: &[u32]) {
        let row = |(layout, &boats): (&Layout, &u32)| signers(format!("for {}", layout.name), layout.name, boats);
        let mut rows: Vec<_> = self.layouts.iter().zip(signed).map(row).collect();
        if let [a, b] = signed {
            rows.push(pointed_at("both".to_string(), a & b, count(size(a & b), "boat")));
        }
        self.text += &picture(self.n, &rows);
    }

    fn split(&mut self, played: &Played) {
        if is_split(&played.submits.records) {
            self.line("");
            self.prose(
                "Mates see different layouts confirmed and would shoot gear across each other. The next messages show whose \
                 fault it is.",
            );
        }
    }

    /// Effects of the options on messages.
    fn radio(&mut self) {
        let Options { lost_links, forged, early, .. } = self.options;
        let mut told = Vec::new();
        if !lost_links.is_empty() {
            let links: Vec<String> = lost_links.iter().map(|(one, other)| format!("{one}-{other}")).collect();
            let (link, are) = if links.len() == 1 { ("link", "is") } else { ("links", "are") };
            told.push(format!("The {link} {} {are} down for now: those boats don't hear each other.", and(&links)));
        }
        if let Some(seat) = early {
            told.push(format!(
                "Boat {seat} is early: its SUBMIT comes before the others have signed. They check it and keep it until they sign."
            ));
        }
        if let Some(seat) = forged {
            told.push(format!("Somebody without the key of boat {seat} sends a SUBMIT in its name."));
        }
        for told in told {
            self.line("");
            self.prose(&told);
        }
    }

    /// The slow boat, or one boat of a side, with each SUBMIT that it hears.
    fn message_by_message(&mut self, played: &Played, side: usize) {
        let Options { early, forged, .. } = *self.options;
        let honest = &played.sides[side].honest;
        let plain = honest.iter().find(|&&seat| Some(seat) != early && Some(seat) != forged);
        let Some(&seat) = played.slow.as_ref().or(plain).or(honest.first()) else { return };
        self.line(format!("\nBoat {seat}, message by message:\n"));
        let rows: Vec<_> = played.submits.of(seat).flat_map(|event| self.told(event)).collect();
        self.rows(&rows);
    }

    /// A call's row. At the own submit the kept ones that count have a row of their own.
    fn told(&self, event: &Event) -> Vec<(String, String)> {
        let row = (self.given(event), self.came_of(event));
        let after = event.answer.as_ref().filter(|_| matches!(event.given, Given::Own)).map(|answer| answer.after);
        match after.map_or(0, |after| after.own.collected & !mask(&[after.seat])) {
            0 => vec![row],
            kept => {
                vec![(row.0, format!("1 of {}", self.k)), (format!("counts what it kept: {}", boats_of(kept)), row.1)]
            }
        }
    }

    fn given(&self, event: &Event) -> String {
        let told = |sent: &Sent| {
            format!("{} of boat {} for {}", air::name(&sent.bytes), sent.from, self.name(&sent.bytes[VALUE_AT..SIGNED]))
        };
        match &event.given {
            Given::Own => {
                let value = event.answer.as_ref().map_or([0; 32], |answer| answer.after.own.value);
                format!("signs {} itself", self.name(&value))
            }
            Given::Message(sent) if event.answer.is_none() => told(sent),
            Given::Message(sent) if sent.forged => format!("hears {}, forged", told(sent)),
            Given::Message(sent) => format!("hears {}", told(sent)),
        }
    }

    /// Result of a SUBMIT.
    fn came_of(&self, event: &Event) -> String {
        let Some(Answer { number, before, after, written }) = &event.answer else {
            return "lost: the link is down".to_string();
        };
        let value = event.message().map(|sent| &sent.bytes[VALUE_AT..SIGNED]);
        match number {
            0 if after.own.collected != before.own.collected => {
                let signatures = format!("{} of {}", size(after.own.collected), self.k);
                let confirms = after.confirmed && !before.confirmed;
                match confirms {
                    true => format!("{signatures}: CONFIRMED, sends {}", messages(before.n, written)),
                    false => signatures,
                }
            }
            0 if after.kept != before.kept => "checked and kept".to_string(),
            0 if value.is_some_and(|value| value != before.own.value) => "not its layout: doesn't count".to_string(),
            0 if before.confirmed => format!("not needed: it has its {}", self.k),
            0 => "heard before".to_string(),
            14 => "refused (14, signature): doesn't count".to_string(),
            number => format!("refused ({number})"),
        }
    }

    /// Each boat with the signatures that it has collected.
    fn collected(&mut self, played: &Played) {
        let keeps = |event: &Event| event.answer.as_ref().is_some_and(|answer| answer.after.kept != 0);
        let kept = if played.submits.events.iter().any(keeps) { " then what it kept, by seat," } else { "" };
        self.line("");
        self.prose(&format!(
            "Each boat counts its own signature first,{kept} then others as they come, up to {}:",
            self.k
        ));
        self.line("");
        let row = |record: &Record| {
            let signed = format!("{} signed by {}", self.name(&record.own.value), boats_of(record.own.collected));
            let outcome = match record.confirmed {
                true => "CONFIRMED, sends NOTICE".to_string(),
                false => format!("{} of {}, waits", size(record.own.collected), self.k),
            };
            (format!("boat {}", record.seat), format!("{signed}: {outcome}"))
        };
        let rows: Vec<_> = played.submits.records.iter().map(row).collect();
        self.rows(&rows);
    }

    /// The boats' answers to the notices.
    fn notices(&mut self, played: &Played) {
        let notices = &played.notices;
        if notices.events.is_empty() {
            return self.prose("Nobody has confirmed a layout, so there is no NOTICE.");
        }
        let heard: Vec<Vec<u8>> = notices.events.iter().filter_map(Event::message).map(value).collect();
        if heard.iter().all(|value| *value == heard[0]) && played.sides.len() == 1 {
            let name = self.name(&heard[0]);
            return self.prose(&format!("The NOTICEs go round. All say {name}, so nobody has to answer."));
        }
        self.prose(
            "The NOTICEs go round. A boat that has confirmed a layout, and hears that another one is confirmed, shows the \
             signatures that it confirmed by:",
        );
        self.line("");
        let rows: Vec<_> = notices
            .records
            .iter()
            .map(|record| (format!("boat {}", record.seat), self.noticed(notices, record)))
            .collect();
        self.rows(&rows);
    }

    fn noticed(&self, notices: &Stage, record: &Record) -> String {
        let own = self.name(&record.own.value);
        let heard: Vec<&Event> = notices.of(record.seat).filter(|event| event.answer.is_some()).collect();
        let other = heard.iter().find(|event| event.message().is_some_and(|sent| value(sent) != record.own.value));
        let status = match record.confirmed {
            true => format!("has confirmed {own}"),
            false => format!("has {} of {} for {own}", size(record.own.collected), self.k),
        };
        match other.and_then(|event| Some((event.message()?, event.answer.as_ref()?))) {
            Some((sent, answer)) => {
                let (from, name) = (sent.from, self.name(&value(sent)));
                let answers = match answer.written.is_empty() {
                    true => "still waits".to_string(),
                    false => format!("sends {}", messages(answer.before.n, &answer.written)),
                };
                format!("{status}, hears NOTICE of boat {from} for {name}: {answers}")
            }
            None if heard.is_empty() => format!("{status}, hears no NOTICE"),
            None => format!("{status}, hears only of {own}: nothing to answer"),
        }
    }

    /// The boats' findings in the full certificates.
    fn fulls(&mut self, played: &Played) {
        if played.fulls.events.is_empty() {
            return;
        }
        self.line("");
        self.prose(
            "The FULLs go round. A boat compares the boats that signed the one layout with those that signed the other. Who \
             stands in both is a double signer:",
        );
        self.line("");
        let mut rows = Vec::new();
        for side in &played.sides {
            for (place, &seat) in side.honest.iter().enumerate() {
                rows.extend(self.compared(&played.fulls, seat, place == 0));
            }
        }
        self.rows(&rows);
    }

    /// A boat's rows: its first find at length or in one line, and later ones.
    fn compared(&self, fulls: &Stage, seat: u32, at_length: bool) -> Vec<(String, String)> {
        let mut rows = Vec::new();
        for event in fulls.of(seat) {
            let (Some(full), Some(Answer { before, after, written, .. })) = (event.certificate(), &event.answer) else {
                continue;
            };
            if written.is_empty() {
                continue;
            }
            let (found, sends) = (boats_of(after.guilty & !before.guilty), messages(before.n, written));
            let (held, name) = (self.name(&before.first.value), self.name(&full.value));
            let hears = format!("hears FULL of boat {}", full.of);
            match at_length && rows.is_empty() {
                true => rows.extend([
                    format!("has {held} signed by {}", boats_of(before.first.seats)),
                    format!("{hears}: {name} signed by {}", boats_of(full.seats)),
                    format!("{found} signed both: sends {sends}"),
                ]),
                false => rows.push(format!("{hears}: {found} signed both, sends {sends}")),
            }
        }
        if rows.is_empty() {
            rows.push("hears no FULL for another layout".to_string());
        }
        std::iter::once(format!("boat {seat}")).chain(std::iter::repeat(String::new())).zip(rows).collect()
    }

    /// Results of the messages that were lost at first.
    fn late(&mut self, played: &Played) {
        if self.options.lost_links.is_empty() {
            return;
        }
        self.line("");
        let links = if self.options.lost_links.len() == 1 { "The link is" } else { "The links are" };
        let wrote = |event: &&Event| event.answer.as_ref().is_some_and(|answer| !answer.written.is_empty());
        let row = |event: &Event| {
            let answer = event.answer.as_ref().expect("an answer that was written");
            let confirms = if answer.after.confirmed && !answer.before.confirmed { "CONFIRMED, " } else { "" };
            let heard = self.given(event);
            (
                format!("boat {}", event.seat),
                format!("{heard}: {confirms}sends {}", messages(answer.before.n, &answer.written)),
            )
        };
        let rows: Vec<_> = played.late.events.iter().filter(wrote).map(row).collect();
        if rows.is_empty() {
            return self
                .prose(&format!("{links} back. What was lost is sent again. No boat needs it, so nobody answers."));
        }
        self.prose(&format!("{links} back. What was lost is sent again, and these boats answer:"));
        self.line("");
        self.rows(&rows);
    }

    /// The check of each EVIDENCE, boat by boat.
    fn evidence(&mut self, played: &Played) {
        if played.evidence.is_empty() {
            return;
        }
        self.line("");
        self.prose(
            "Each EVIDENCE is checked, as anyone can who has the fleet's public keys. It names the boats that signed twice:",
        );
        self.line("");
        let several = played.honest().into_iter().any(|seat| played.packs(seat).count() > 1);
        let row = |(number, pack): (u32, &Pack)| {
            let number = if several { format!(" {number}") } else { String::new() };
            let told = match pack.verdict.number {
                0 => format!("accepted: {}", boats_of(pack.verdict.mask)),
                number => format!("REFUSED ({number})"),
            };
            let bytes = thousands(pack.sent.bytes.len());
            (format!("EVIDENCE{number} of boat {}, {bytes} bytes", pack.sent.from), told)
        };
        let packs = |seat: u32| (1..).zip(played.packs(seat)).map(row).collect::<Vec<_>>();
        self.rows(&played.honest().into_iter().flat_map(packs).collect::<Vec<_>>());
    }

    /// Boats that have confirmed, and boats that hold evidence.
    fn outcome(&mut self, played: &Played) {
        self.line("");
        let sides: Vec<String> = played.sides.iter().map(|side| self.has_confirmed(played, side)).collect();
        self.prose(&sides.join(" "));
        match is_split(&played.late.records) {
            true => self.blame(played),
            false => self.lesson(played),
        }
    }

    fn has_confirmed(&self, played: &Played, side: &Side) -> String {
        let has = |seat: &&u32| played.late.record(**seat).confirmed;
        let confirmed: Vec<u32> = side.honest.iter().filter(has).copied().collect();
        let (name, verb) = (side.layout.name, if confirmed.len() == 1 { "has" } else { "have" });
        match confirmed.is_empty() {
            true => format!("Nobody has confirmed {name}."),
            false => format!("{} {verb} confirmed {name}.", capital(&boats(&confirmed))),
        }
    }

    /// The evidence that the check accepted, by its masks.
    fn blame(&mut self, played: &Played) {
        let honest = played.honest();
        let held = honest.iter().filter(|&&seat| holds(played, seat)).count();
        let first = |seat: u32| played.packs(seat).next().map_or(0, |pack| pack.verdict.mask);
        let fewest = |of: &dyn Fn(u32) -> u32| honest.iter().map(|&seat| size(of(seat))).min().unwrap_or_default();
        let named = honest.iter().fold(0, |named, &seat| named | played.named(seat));
        let blamed = match named & mask(&honest) {
            0 => "No honest boat is named.".to_string(),
            blamed => format!("HONEST BOATS ARE NAMED: {}.", boats_of(blamed)),
        };
        let (at_first, in_the_end) = (fewest(&first), fewest(&|seat| played.named(seat)));
        let more = match in_the_end > at_first {
            true => format!(" at first, and {in_the_end} in the end; together they name "),
            false => ": ".to_string(),
        };
        let mut told = format!(
            "{held} of {} honest boats hold evidence that the check accepts. Each names at least {} ({} promised){more}{}. \
             {blamed}",
            honest.len(),
            count(at_first, "boat"),
            self.shared,
            boats_of(named),
        );
        let unnamed = list(mask(&played.double()) & !named);
        if !unnamed.is_empty() {
            let (who, stand) =
                (capital(&boats(&unnamed)), if unnamed.len() == 1 { "doesn't stand" } else { "don't stand" });
            told += &format!(" {who} signed both too, but {stand} in both sets of {} signatures.", self.k);
        }
        self.prose(&told);
    }

    /// The reason why the fleet isn't split.
    fn lesson(&mut self, played: &Played) {
        let double_signers = played.double().len() as u32;
        if double_signers == 0 {
            return self.line("No two mates see different layouts confirmed.");
        }
        self.prose(&format!(
            "No two mates see different layouts confirmed: {} can't split {} boats. It takes {}. Nobody holds evidence, for it is \
             found only where two layouts are confirmed.",
            count(double_signers, "double signer"),
            self.n,
            self.shared,
        ));
    }

    fn silence(&mut self, played: &Played) {
        let answers = played.again.sent().len() as u32;
        let silence = if answers == 0 { " Silence." } else { "" };
        self.line(format!("All messages of the round are heard a second time: {}.{silence}", count(answers, "answer")));
    }
}

fn value(sent: &Sent) -> Vec<u8> {
    sent.bytes[VALUE_AT..SIGNED].to_vec()
}

/// The answer to a boat's own submit.
fn signed(played: &Played, seat: u32) -> &Answer {
    let own = played.submits.of(seat).find(|event| matches!(event.given, Given::Own));
    own.and_then(|event| event.answer.as_ref()).expect("each boat submits")
}

/// The names of the messages that a call wrote. That who signs sends its SUBMIT goes without saying.
fn messages(n: u32, written: &[u8]) -> String {
    let names = air::messages(n, written);
    and(&names.iter().map(|message| air::name(message)).filter(|&name| name != "SUBMIT").collect::<Vec<_>>())
}
