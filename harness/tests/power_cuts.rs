//! The example that keeps its round in a file, killed at each point between two steps and at moments between them, a thousand
//! times. A kill leaves what the kernel holds, and a power cut doesn't: so the test takes away what the example hadn't flushed by
//! then.
#![cfg(feature = "zolbine")]

use std::collections::{BTreeMap, BTreeSet};
use std::fs::{self, File};
use std::io::{BufRead, BufReader, Write};
use std::os::unix::process::ExitStatusExt;
use std::path::{Path, PathBuf};
use std::process::{Command, Stdio};
use std::sync::atomic::{AtomicUsize, Ordering};
use std::sync::{Mutex, MutexGuard};
use std::time::{Duration, Instant};

use harness::air;
use harness::c_program::{compile, compiler, file, SANITIZED};
use harness::compare::progress;
use harness::confirmer::{Engine, EvidenceCheck, Framing, Notes, Reference};
use harness::fleet::{self, rounds, Fleet};
use harness::library::Library;
use harness::parallel;
use harness::reference::layout::{self, EVIDENCE_ENTRIES_AT, EVIDENCE_ENTRY, SIGNATURE_AT, SIGNED, VALUE_AT};
use harness::reference::messages::{Evidence, Value, EVIDENCE, FULL, SUBMIT};
use harness::reference::note::render;
use harness::reference::quorum::{k, t0};
use harness::reference::record::{Record, Stepped};
use harness::reference::seats::{list, mask};
use harness::rng::{seed, Rng};
use harness::terms::{change, each_line, Terms};
use harness::yard::{hearing, opening};

const EXAMPLE: &str = "examples/lasting_unit.c";
/// The example's seat, and one that hears its FULL.
const OWN: u32 = 0;
const OTHER: u32 = 1;
/// The checksum at the end of the round's file.
const SUM: usize = 8;
const KILLS: usize = 1000;
const SIGKILL: i32 = 9;

/// A round as the boat hears it, from the first line at each start. A is the layout that its seat has signed, before that the one
/// that its skipper wants since this start.
struct Script {
    title: &'static str,
    n: u32,
    inputs: &'static str,
    /// The double signers that each EVIDENCE names.
    packs: &'static [u32],
}

const SCRIPTS: [Script; 5] = [
    Script {
        title: "all sign one layout",
        n: 4,
        inputs: "
            hears SUBMIT 2 A                    # kept
            settles
            hears SUBMIT 2 A
            hears SUBMIT 3 A byte 700 flipped   # refused
            hears SUBMIT 1 A                    # confirms
            hears NOTICE 1 A",
        packs: &[],
    },
    Script {
        title: "two double signers, heard of before the own submit",
        n: 4,
        inputs: "
            layout B 42
            hears SUBMIT 1 B                    # kept
            hears NOTICE 1 B
            settles
            hears SUBMIT 2 A
            hears SUBMIT 3 A                    # confirms, with NOTICE and FULL
            hears FULL 1 B of 1 2 3             # EVIDENCE",
        packs: &[0b1100],
    },
    Script {
        title: "two double signers, and a submit that writes all four messages",
        n: 4,
        inputs: "
            layout B 12
            hears SUBMIT 2 A                    # kept
            hears SUBMIT 3 A                    # kept
            hears FULL 1 B of 1 2 3
            settles                             # confirms, where those kept are over A
            hears SUBMIT 2 A
            hears SUBMIT 3 A",
        packs: &[0b1100],
    },
    // t0 + 1 EVIDENCEs, which name all k seats of the first certificate held: no round writes more bytes.
    Script {
        title: "five double signers in three EVIDENCEs",
        n: 7,
        inputs: "
            layout B 42
            layout C 12
            layout D 32
            hears FULL 1 B of 1-5               # held
            settles
            hears SUBMIT 1 A
            hears SUBMIT 2 A
            hears SUBMIT 3 A
            hears SUBMIT 6 A                    # confirms, with all of NOTICE, FULL and EVIDENCE
            hears FULL 6 D of 1-3 5 6 byte 5000 flipped   # refused
            hears FULL 6 C of 1-4 6             # EVIDENCE of one more
            hears FULL 6 C of 1-4 6             # nobody new
            hears FULL 6 D of 1-3 5 6           # EVIDENCE of the last one
            hears NOTICE 6 D                    # with all of the round's bytes kept",
        packs: &[0b1110, 0b10000, 0b100000],
    },
    Script {
        title: "five double signers in two EVIDENCEs, the first before the own submit",
        n: 7,
        inputs: "
            layout B 22
            layout C 42
            hears SUBMIT 5 A                    # kept
            hears FULL 1 B of 1-5               # held
            hears FULL 6 C of 1-4 6             # EVIDENCE
            settles
            hears SUBMIT 5 A
            hears SUBMIT 4 A
            hears SUBMIT 2 A
            hears SUBMIT 6 A                    # confirms, with all of NOTICE, FULL and EVIDENCE of one more
            hears FULL 6 C of 1-4 6",
        packs: &[0b11110, 0b100000],
    },
];

/// An input of the example.
enum Input {
    Settles,
    Hears(Vec<u8>),
}

fn round() -> u32 {
    rounds()[2]
}

/// The layout that the skipper wants since a start: each time another one.
fn wanted(start: usize) -> Value {
    let mut value = [0x22; 32];
    value[31] = start as u8;
    value
}

impl Script {
    fn fleet(&self) -> Fleet {
        Fleet { n: self.n, round: round() }
    }

    fn guilty(&self) -> u32 {
        self.packs.iter().fold(0, |guilty, pack| guilty | pack)
    }

    fn inputs(&self, a: &Value) -> Vec<Input> {
        let head = format!("fleet {} round {}\nlayout A {:02x} {:02x}\n", self.n, round(), a[0], a[31]);
        let mut terms = Terms::default();
        let mut inputs = Vec::new();
        let read = each_line(&(head + self.inputs), |words| {
            match words.next().unwrap_or_default() {
                "fleet" => terms.set_fleet(words)?,
                "layout" => terms.set_layout(words)?,
                "settles" => inputs.push(Input::Settles),
                "hears" => {
                    let mut message = terms.message(words)?;
                    while let Some(word) = words.next_if_eq(&"byte") {
                        change(word, words, &mut message)?;
                    }
                    inputs.push(Input::Hears(message));
                }
                word => return Err(format!("`{word}` isn't understood")),
            }
            Ok(())
        });
        read.unwrap_or_else(|error| panic!("{}, {error}", self.title));
        inputs
    }
}

/// The moment of a kill: at a point, counted from 1, or some time after it.
#[derive(Clone, Copy, Debug)]
enum Cut {
    At(usize),
    After(usize, Duration),
    /// At a point: the program stops and the power stays. Nothing is taken.
    Stopped(usize),
}

/// What a power cut may take, by the points told so far. What stays may still go at the next one.
#[derive(Default)]
struct Unflushed {
    /// Content of the file aside, and of the round's file where it was renamed so.
    aside: bool,
    file: bool,
    /// Renamings since the folder was flushed, and the round's file before them.
    renamed: bool,
    former: Option<Vec<u8>>,
}

impl Unflushed {
    fn told(&mut self, point: &str, file: &Path) {
        match point {
            "aside opened" => {
                self.aside = true;
                if !self.renamed {
                    self.former = fs::read(file).ok();
                }
            }
            "aside flushed" => self.aside = false,
            "renamed" => {
                self.file = std::mem::take(&mut self.aside);
                self.renamed = true;
            }
            "folder flushed" | "folder flushed again" => self.renamed = false,
            _ => (),
        }
    }

    /// Takes each of them, or by chance doesn't.
    fn lose(&mut self, file: &Path, rng: &mut Rng) {
        let aside = file.with_file_name("aside");
        for (unflushed, path) in [(&mut self.aside, aside.as_path()), (&mut self.file, file)] {
            if *unflushed && rng.one_in(2) {
                *unflushed = false;
                if let Ok(content) = fs::read(path) {
                    fs::write(path, &content[..rng.below(content.len() + 1)]).expect("a file cut short");
                }
            }
        }
        if self.renamed && rng.one_in(2) {
            self.renamed = false;
            match self.former.take() {
                Some(former) => fs::write(file, former).expect("the former file"),
                None => fs::remove_file(file).expect("the round's file"),
            }
        }
    }
}

/// One start of the example, to its end or to a kill.
struct Start {
    /// The points told.
    points: Vec<String>,
    killed: bool,
    /// Other lines on standard error.
    words: String,
}

/// A boat in one round: its lasting memory, and all that has left it.
struct Boat<'a> {
    program: &'a Program,
    script: &'a Script,
    memory: Folder,
    unflushed: Unflushed,
    /// Renamings after which the round's file was as before.
    idle: usize,
    starts: usize,
    sent: Vec<Vec<u8>>,
    /// First bytes of messages that a kill broke off.
    broken: Vec<Vec<u8>>,
    rng: Rng,
}

impl<'a> Boat<'a> {
    fn new(program: &'a Program, script: &'a Script, rng: Rng) -> Boat<'a> {
        let memory = Folder::new();
        let key = fleet::key(OWN);
        let bytes = [&key.seed[..], &key.identifier, &key.lent_tree(&[0; 32])].concat();
        fs::write(memory.0.join("key"), bytes).expect("the key's file");
        let (unflushed, sent, broken) = (Unflushed::default(), Vec::new(), Vec::new());
        Boat { program, script, memory, unflushed, idle: 0, starts: 0, sent, broken, rng }
    }

    fn file(&self) -> PathBuf {
        self.memory.0.join(format!("round-{:04}", round()))
    }

    /// The layout that the note says is submitted.
    fn submitted(&self) -> Option<Value> {
        let lasting = fs::read(self.file()).ok()?;
        let own = Reference.read_note(lasting.get(..layout::NOTE)?).record.own;
        own.submitted.then_some(own.value)
    }

    /// What leaves the boat is heard and judged also where the program stops.
    fn start(&mut self, cut: Option<Cut>) -> Result<Start, String> {
        self.starts += 1;
        let wants = wanted(self.starts);
        let Fleet { n, round } = self.script.fleet();
        let mut bytes = opening(n, OWN, round, &self.script.fleet().key_table());
        for input in self.script.inputs(&self.submitted().unwrap_or(wants)) {
            bytes.extend(match input {
                Input::Settles => [&[0x12][..], &wants].concat(),
                Input::Hears(message) => hearing(&message),
            });
        }
        let (inputs, air) = (self.memory.0.join("inputs"), self.memory.0.join("air"));
        fs::write(&inputs, bytes).expect("the inputs' file");
        let mut command = self.program.command();
        command.arg(&self.memory.0).arg(&inputs).stdout(File::create(&air).expect("a file"));
        let start = self.run(command, cut);
        let killed = start.as_ref().is_ok_and(|start| start.killed);
        self.listen(&fs::read(air).expect("what was sent"), killed)?;
        self.distinct()?;
        start
    }

    /// Lets the example go on from point to point, or kills it.
    fn run(&mut self, mut command: Command, cut: Option<Cut>) -> Result<Start, String> {
        let mut child = command.stdin(Stdio::piped()).stderr(Stdio::piped()).spawn().expect("the example starts");
        let (mut go, told) = (child.stdin.take().expect("a pipe"), child.stderr.take().expect("a pipe"));
        let (mut points, mut words) = (Vec::new(), String::new());
        let (file, mut content) = (self.file(), None);
        for line in BufReader::new(told).lines() {
            let line = line.expect("text");
            let Some(point) = line.strip_prefix("point: ") else {
                words += &line;
                continue;
            };
            points.push(point.to_string());
            self.unflushed.told(point, &file);
            match point {
                "aside opened" => content = fs::read(&file).ok(),
                "renamed" if fs::read(&file).ok() == content => self.idle += 1,
                _ => (),
            }
            match cut {
                Some(Cut::At(number) | Cut::Stopped(number)) if number == points.len() => {
                    child.kill().expect("a kill");
                    break;
                }
                Some(Cut::After(number, time)) if number == points.len() => {
                    go.write_all(&[0]).expect("the example waits");
                    let now = Instant::now();
                    while now.elapsed() < time {
                        std::hint::spin_loop();
                    }
                    child.kill().expect("a kill");
                    break;
                }
                _ => go.write_all(&[0]).expect("the example waits"),
            }
        }
        let status = child.wait().expect("the example ends");
        let killed = status.signal() == Some(SIGKILL);
        if !killed && !status.success() {
            return Err(format!("stopped: {status}, {words}"));
        }
        if killed && !matches!(cut, Some(Cut::Stopped(_))) {
            self.unflushed.lose(&file, &mut self.rng);
        }
        Ok(Start { points, killed, words })
    }

    /// Takes what a start has sent; of the last message a kill may have left a part.
    fn listen(&mut self, mut bytes: &[u8], killed: bool) -> Result<(), String> {
        while !bytes.is_empty() {
            let length = Reference.message_length(self.script.n, bytes) as usize;
            if length == 0 && killed {
                self.broken.push(bytes.to_vec());
                return Ok(());
            }
            if length == 0 {
                return Err(format!("garbled: {} bytes on the air that are no message", bytes.len()));
            }
            self.sent.push(bytes[..length].to_vec());
            bytes = &bytes[length..];
        }
        Ok(())
    }

    /// The different messages that have left the boat: one of each kind, but for EVIDENCEs that have no seat in common.
    fn distinct(&self) -> Result<Vec<&Vec<u8>>, String> {
        let signed = self.sent.iter().chain(&self.broken).filter(|bytes| bytes[0] == SUBMIT && bytes.len() >= SIGNED);
        let layouts: BTreeSet<&[u8]> = signed.map(|bytes| &bytes[VALUE_AT..SIGNED]).collect();
        if layouts.len() > 1 {
            return Err(format!("signed twice: {} layouts", layouts.len()));
        }
        let mut distinct: Vec<&Vec<u8>> = Vec::new();
        for message in &self.sent {
            if distinct.contains(&message) {
                continue;
            }
            for other in distinct.iter().filter(|other| other[0] == message[0]) {
                self.go_together(other, message)?;
            }
            distinct.push(message);
        }
        Ok(distinct)
    }

    /// Two different messages of a kind.
    fn go_together(&self, one: &[u8], other: &[u8]) -> Result<(), String> {
        let named = |message: &[u8]| Evidence::read(message, self.script.n).map(|evidence| mask(&evidence.seats()));
        match named(one).zip(named(other)).map(|(one, other)| list(one & other)) {
            None => Err(format!("said twice: two different messages {}", air::name(one))),
            Some(both) if !both.is_empty() => Err(format!("named twice: {both:?}, in two EVIDENCEs")),
            Some(_) => Ok(()),
        }
    }

    /// All that has left the boat, once its round is over.
    fn judged(&self, words: &str) -> Result<(), String> {
        let distinct = self.distinct()?;
        if let Some(part) = self.broken.iter().find(|&part| !distinct.iter().any(|whole| whole.starts_with(part))) {
            return Err(format!("lost: the message whose first {} bytes left the boat", part.len()));
        }
        let of = |command: u8| distinct.iter().find(|message| message[0] == command);
        if let Some(full) = of(FULL) {
            let unit = &mut Unit::open(self.script.fleet(), OTHER);
            unit.step(full).map_err(|number| format!("refused: FULL, {number}"))?;
        }
        for (evidence, &named) in packs(&distinct).zip(self.script.packs) {
            let Fleet { n, round } = self.script.fleet();
            let verdict = Library.check_evidence(n, round, &self.script.fleet().key_table(), evidence);
            if (verdict.number, verdict.mask) != (0, named) {
                return Err(format!("refused: EVIDENCE, {verdict:?}"));
            }
        }
        if self.idle > 0 {
            return Err(format!("kept again: nothing has changed, {} times", self.idle));
        }
        let own = of(SUBMIT).ok_or("lost: the SUBMIT")?;
        self.compared(&distinct, own, words)
    }

    /// The messages and the file are those of the reference in the same round without a cut.
    fn compared(&self, distinct: &[&Vec<u8>], own: &[u8], words: &str) -> Result<(), String> {
        let value: Value = own[VALUE_AT..SIGNED].try_into().expect("32 bytes");
        let n = self.script.n;
        let mut unit = Unit::open(self.script.fleet(), OWN);
        for input in self.script.inputs(&value) {
            match input {
                Input::Settles => {
                    unit.submit(&value, &own[SIGNATURE_AT..]).map_err(|n| format!("refused: SUBMIT, {n}"))?
                }
                // A garbled one is refused.
                Input::Hears(message) => drop(unit.step(&message)),
            }
        }
        let names = |messages: &[&Vec<u8>]| messages.iter().map(|message| air::name(message)).collect::<Vec<_>>();
        let expected: Vec<&Vec<u8>> = unit.written.iter().collect();
        if names(distinct) != names(&expected) {
            return Err(format!("lost: {:?} for {:?}", names(distinct), names(&expected)));
        }
        if distinct != expected {
            return Err("other messages than the reference's".into());
        }
        let (confirmed, guilty) = (unit.record.confirmed, unit.record.guilty);
        assert!(confirmed && guilty == self.script.guilty(), "{}: {:?}", self.script.title, unit.record);
        let lasting = fs::read(self.file()).expect("the round's file");
        let (note, after) = lasting.split_at(layout::NOTE);
        if note != render(&unit.record) {
            return Err(format!("another note than that of {:?}", unit.record));
        }
        let (store, after) = after.split_at(layout::store(n));
        let collected = list(unit.record.own.collected).into_iter().map(layout::collected);
        let first = list(unit.record.first.seats).into_iter().map(|seat| layout::first(n, seat));
        if let Some(slot) = collected.chain(first).find(|slot| store[slot.clone()] != unit.store[slot.clone()]) {
            return Err(format!("another store: bytes {slot:?}"));
        }
        if after[..after.len() - SUM] != unit.written.concat() {
            return Err("other messages in the file".into());
        }
        if words != format!("confirmed; double signers 0x{guilty:08x}") {
            return Err(format!("other words: {words}"));
        }
        Ok(())
    }
}

fn packs<'a>(messages: &'a [&Vec<u8>]) -> impl Iterator<Item = &'a [u8]> {
    messages.iter().filter(|message| message[0] == EVIDENCE).map(|message| message.as_slice())
}

/// A unit of the reference, and the messages that it has written.
struct Unit {
    keys: Vec<u8>,
    record: Record,
    store: Vec<u8>,
    out: Vec<u8>,
    written: Vec<Vec<u8>>,
}

impl Unit {
    fn open(fleet: Fleet, seat: u32) -> Unit {
        let keys = fleet.key_table();
        let opened = Reference.open(fleet.n, seat, fleet.round, &keys);
        assert_eq!(opened.number, 0);
        let (store, out) = (vec![0; layout::store(fleet.n)], vec![0; layout::out(fleet.n)]);
        Unit { keys, record: opened.record, store, out, written: Vec::new() }
    }

    fn submit(&mut self, value: &Value, signature: &[u8]) -> Result<(), u32> {
        let Unit { keys, record, store, out, .. } = self;
        let answer = Reference.submit(*record, keys, store, value, signature, out);
        self.answered(answer)
    }

    fn step(&mut self, message: &[u8]) -> Result<(), u32> {
        let Unit { keys, record, store, out, .. } = self;
        let answer = Reference.step(*record, keys, store, message, out);
        self.answered(answer)
    }

    fn answered(&mut self, answer: Stepped) -> Result<(), u32> {
        let Stepped { number, written, record } = answer;
        self.record = record;
        self.written.extend(air::messages(record.n, &self.out[..written as usize]));
        if number == 0 {
            Ok(())
        } else {
            Err(number)
        }
    }
}

/// A round with kills in its first starts; others follow by chance.
struct Case {
    script: usize,
    cuts: Vec<Cut>,
}

/// The kills of a round.
#[derive(Default)]
struct Kills {
    /// Names of the points.
    at: Vec<String>,
    /// At some moment after a point.
    after: usize,
    /// The EVIDENCEs that had left the boat at each of them.
    packs: Vec<usize>,
}

/// The most kills by chance in one round.
const BY_CHANCE: usize = 5;

/// A round to its end: the last start runs through.
fn played(program: &Program, case: &Case, mut rng: Rng) -> Result<Kills, String> {
    let mut cuts = case.cuts.clone();
    while cuts.len() < case.cuts.len() + BY_CHANCE && !rng.one_in(3) {
        let (point, time) = (1 + rng.below(100), Duration::from_micros(rng.below(800) as u64));
        cuts.push(if rng.one_in(2) { Cut::At(point) } else { Cut::After(point, time) });
    }
    let mut boat = Boat::new(program, &SCRIPTS[case.script], rng);
    let mut kills = Kills::default();
    for (number, &cut) in cuts.iter().enumerate() {
        let start = boat.start(Some(cut))?;
        match cut {
            Cut::At(_) | Cut::Stopped(_) if start.killed => {
                kills.at.push(start.points.last().expect("a point").clone())
            }
            Cut::After(..) if start.killed => kills.after += 1,
            _ if number < case.cuts.len() => return Err(format!("no kill: {cut:?} is after the end")),
            _ => continue,
        }
        kills.packs.push(packs(&boat.distinct()?).count());
    }
    let last = boat.start(None)?;
    boat.judged(&last.words)?;
    Ok(kills)
}

/// Points of a start that runs through, and of the next one; none where a bad host stops.
fn points(program: &Program, script: &Script) -> [Vec<String>; 2] {
    let mut boat = Boat::new(program, script, Rng::new(seed(), "points"));
    [1, 2].map(|_| boat.start(None).map_or(Vec::new(), |start| start.points))
}

/// A kill at each point of the first start, and at each of the second one where the first was killed at its last point. Then one
/// of the program alone, when the file says that the layout is submitted and the folder isn't flushed, with kills soon after the
/// next start.
fn cases(program: &Program) -> Vec<Case> {
    let mut cases = Vec::new();
    for (script, text) in SCRIPTS.iter().enumerate() {
        let [first, second] = points(program, text);
        let end = first.len();
        cases.extend((1..=end).map(|point| Case { script, cuts: vec![Cut::At(point)] }));
        cases.extend((1..=second.len()).map(|point| Case { script, cuts: vec![Cut::At(end), Cut::At(point)] }));
        let mut places = (1..).zip(&first).skip_while(|(_, point)| *point != "signed");
        let (renamed, _) = places.find(|(_, point)| *point == "renamed").expect("the submit is kept");
        cases.extend((3..=9).map(|point| Case { script, cuts: vec![Cut::Stopped(renamed), Cut::At(point)] }));
    }
    cases
}

/// A folder for as long as it is needed, in memory where the machine has such files.
struct Folder(PathBuf);

impl Folder {
    fn new() -> Folder {
        static NUMBER: AtomicUsize = AtomicUsize::new(0);
        let name = format!("zolbine-{}-{}", std::process::id(), NUMBER.fetch_add(1, Ordering::Relaxed));
        let mut folders = ["/dev/shm", env!("CARGO_TARGET_TMPDIR")].map(|root| Path::new(root).join(&name)).into_iter();
        Folder(folders.find(|folder| fs::create_dir(folder).is_ok()).expect("a folder"))
    }
}

impl Drop for Folder {
    fn drop(&mut self) {
        let _ = fs::remove_dir_all(&self.0);
    }
}

/// The example or an edit of it, and the command that watches it.
struct Program {
    path: PathBuf,
    watcher: &'static [&'static str],
}

impl Program {
    fn compiled(source: &str, name: &str, flags: &[&str]) -> Program {
        let path = Path::new(env!("CARGO_TARGET_TMPDIR")).join(name);
        compile(compiler(false), source, &path, flags);
        Program { path, watcher: &[] }
    }

    /// It tells its points.
    fn with_points(source: &str, name: &str, flags: &[&str]) -> Program {
        let points = file("harness/c/cuts.h");
        Program::compiled(source, name, &[flags, &["-include", points.to_str().expect("a path")]].concat())
    }

    fn command(&self) -> Command {
        match self.watcher {
            [] => Command::new(&self.path),
            [watcher, arguments @ ..] => {
                let mut command = Command::new(watcher);
                command.args(arguments).arg(&self.path);
                command
            }
        }
    }
}

fn source() -> String {
    fs::read_to_string(file(EXAMPLE)).expect("the example")
}

/// The points of the source.
fn names() -> BTreeSet<String> {
    let source = source();
    let after = source.split("CUT(\"").skip(1);
    after.map(|text| text.split('"').next().expect("a name").to_string()).collect()
}

/// At each point of the source, at each that a start and the next one come to, and at moments after them.
#[test]
fn a_thousand_kills() {
    let program = Program::with_points(EXAMPLE, "lasting_unit_cut", &[]);
    let mut cases = cases(&program);
    let (mut at, mut after, mut packs, mut rounds) = (Vec::new(), 0, BTreeMap::new(), 0);
    while at.len() + after < KILLS {
        let numbered: Vec<(usize, Case)> = (rounds..).zip(cases).collect();
        let kills = parallel::map(&numbered, |(number, case)| {
            let rng = Rng::new(seed(), &format!("power cuts {number}"));
            played(&program, case, rng).unwrap_or_else(|fault| {
                let title = SCRIPTS[case.script].title;
                panic!("{title}, round {number}, {:?}: {fault}; ZOLBINE_SEED={}", case.cuts, seed())
            })
        });
        for (kills, (_, case)) in kills.into_iter().zip(&numbered) {
            after += kills.after;
            at.extend(kills.at);
            for number in kills.packs {
                *packs.entry((case.script, number)).or_insert(0) += 1;
            }
        }
        rounds += numbered.len();
        // More by chance.
        cases = (0..50).map(|number| Case { script: number % SCRIPTS.len(), cuts: Vec::new() }).collect();
    }
    let counts = names().into_iter().map(|name| {
        let count = at.iter().filter(|&at| *at == name).count();
        assert!(count > 0, "no kill at `{name}`");
        format!("{name} {count}")
    });
    let counts = counts.collect::<Vec<_>>().join(", ");
    progress(&format!("power cuts: {} kills at a point ({counts}), {after} after one, {rounds} rounds", at.len()));
    for (script, text) in SCRIPTS.iter().enumerate() {
        let counts = (0..=text.packs.len()).map(|number| packs.get(&(script, number)).copied().unwrap_or_default());
        let counts: Vec<usize> = counts.collect();
        progress(&format!("power cuts: {}: {counts:?} kills after 0, 1, .. EVIDENCEs", text.title));
        assert!(counts.iter().all(|&count| count > 0), "{}: {counts:?}", text.title);
    }
    assert!(at.len() + after >= KILLS);
    assert!(after >= KILLS / 20, "{after} kills after a point");
}

/// An edit of the example, and the verdicts of the same rounds on it.
struct Fault {
    name: &'static str,
    edits: &'static [(&'static str, &'static str)],
    verdicts: &'static [&'static str],
}

const FAULTS: [Fault; 12] = [
    Fault {
        name: "sends_before_it_keeps",
        edits: &[(
            "    keep(unit, note);\n    send_from(unit, sent);\n",
            "    send_from(unit, sent);\n    keep(unit, note);\n",
        )],
        verdicts: &["signed twice"],
    },
    Fault {
        name: "comes_back_blank",
        edits: &[("if (has_file(unit))", "if (has_file(unit) && false)")],
        verdicts: &["signed twice"],
    },
    Fault {
        name: "comes_back_with_another_store",
        edits: &[(
            "unit->messages_len = len - pair;",
            "unit->messages_len = len - pair; memset(unit->store, 7, unit->store_len);",
        )],
        verdicts: &["refused: FULL", "refused: EVIDENCE"],
    },
    Fault {
        name: "messages_not_kept",
        edits: &[("unit->messages_len = len - pair;", "unit->messages_len = 0;")],
        verdicts: &["lost"],
    },
    Fault { name: "sends_nothing_again", edits: &[("    send_from(&unit, 0);", "")], verdicts: &["lost"] },
    Fault { name: "written_in_place", edits: &IN_PLACE, verdicts: &["stopped"] },
    Fault {
        name: "written_in_place_without_a_checksum",
        edits: &[IN_PLACE[0], IN_PLACE[1], ("memcmp(sum, unit->lasting + len, SUM_LEN) != 0", "false")],
        verdicts: &["refused: EVIDENCE"],
    },
    Fault {
        name: "aside_not_flushed",
        edits: &[("    flush(aside);\n    CUT(\"aside flushed\");\n", "")],
        verdicts: &["stopped"],
    },
    Fault {
        name: "folder_not_flushed",
        edits: &[("    flush(unit->folder);\n    CUT(\"folder flushed\");\n", "")],
        verdicts: &["signed twice"],
    },
    Fault {
        name: "folder_not_flushed_again",
        edits: &[("    CUT(\"folder flushed again\");\n", ""), ("    flush(unit.folder);", "")],
        verdicts: &["signed twice"],
    },
    Fault {
        name: "forgets_whom_it_has_named",
        edits: &[(
            "    unit->record = opened.record;\n",
            "    unit->record = opened.record; unit->record.guilty = 0;\n",
        )],
        verdicts: &["named twice"],
    },
    Fault {
        name: "keeps_what_has_not_changed",
        edits: &[("written == 0 && memcmp(note, unit->lasting, sizeof note) == 0", "false")],
        verdicts: &["kept again"],
    },
];

/// Not aside.
const IN_PLACE: [(&str, &str); 2] = [
    ("open(\"aside\", O_WRONLY | O_CREAT | O_TRUNC, 0600)", "open(unit->file, O_WRONLY | O_CREAT, 0600)"),
    ("rename(\"aside\", unit->file) != 0", "false"),
];

impl Fault {
    fn program(&self) -> Program {
        let mut text = source();
        for (from, to) in self.edits {
            assert_eq!(text.matches(from).count(), 1, "{}: {from}", self.name);
            text = text.replace(from, to);
        }
        let path = Path::new(env!("CARGO_TARGET_TMPDIR")).join(format!("{}.c", self.name));
        fs::write(&path, text).expect("a source file");
        Program::with_points(path.to_str().expect("a path"), self.name, &[])
    }

    /// Plays the rounds until each of the verdicts has come, and counts them.
    fn rounds_to_catch(&self) -> usize {
        let program = self.program();
        let numbered: Vec<(usize, Case)> = cases(&program).into_iter().enumerate().collect();
        let (rounds, told) = (AtomicUsize::new(0), Mutex::new(BTreeSet::new()));
        let missing = || {
            let told: MutexGuard<BTreeSet<String>> = told.lock().unwrap();
            self.verdicts.iter().find(|&verdict| !told.iter().any(|told| told.starts_with(verdict)))
        };
        parallel::map(&numbered, |(number, case)| {
            if missing().is_some() {
                rounds.fetch_add(1, Ordering::Relaxed);
                let rng = Rng::new(seed(), &format!("{} {number}", self.name));
                told.lock().unwrap().extend(played(&program, case, rng).err());
            }
        });
        if let Some(verdict) = missing() {
            panic!("{}: never `{verdict}`, but {:?}; ZOLBINE_SEED={}", self.name, told.lock().unwrap(), seed());
        }
        rounds.into_inner()
    }
}

#[test]
fn a_host_that_keeps_badly_is_caught() {
    for fault in &FAULTS {
        let rounds = fault.rounds_to_catch();
        progress(&format!("power cuts: {} {:?} in {rounds} rounds", fault.name, fault.verdicts));
    }
}

const ROOM: Fault = Fault {
    name: "room_for_one_byte_less",
    edits: &[("unit->room = ROUND_LEN(n) + ", "unit->room = ROUND_LEN(n) - 1 + ")],
    verdicts: &["stopped"],
};

/// The round that writes most needs all of the example's room: with a byte less its last call is refused.
#[test]
fn a_round_that_writes_most() {
    let script = &SCRIPTS[3];
    let start = |program: &Program| Boat::new(program, script, Rng::new(seed(), "room")).start(None).map(drop);
    assert_eq!(start(&Program::with_points(EXAMPLE, "lasting_unit_room", &[])), Ok(()));
    let told = start(&ROOM.program()).expect_err("a byte less is enough");
    assert!(told.starts_with(ROOM.verdicts[0]) && told.contains("refuses"), "{told}");

    let mut unit = Unit::open(script.fleet(), OWN);
    let value = wanted(1);
    for input in script.inputs(&value) {
        let refused = match input {
            Input::Settles => unit.submit(&value, &script.fleet().signature(OWN, &value, 0)),
            Input::Hears(message) => unit.step(&message),
        };
        assert!(matches!(refused, Ok(()) | Err(14)), "{refused:?}");
    }
    let [t0, k] = [t0(script.n), k(script.n)].map(|number| number as usize);
    let packs = (t0 + 1) * EVIDENCE_ENTRIES_AT + k * EVIDENCE_ENTRY;
    assert_eq!(unit.written.concat().len(), layout::SUBMIT + layout::NOTICE + layout::full(k as u32) + packs);
}

/// A start, with a kill or to its end, and one that goes on.
fn runs_well(program: &Program, cut: Option<Cut>) {
    for script in &SCRIPTS {
        let mut boat = Boat::new(program, script, Rng::new(seed(), "well"));
        let first = boat.start(cut).expect("a start");
        assert_eq!(first.killed, cut.is_some());
        let judged = boat.start(None).and_then(|last| boat.judged(&last.words));
        judged.unwrap_or_else(|fault| panic!("{}: {fault}", script.title));
    }
}

/// A byte of it changed, its end taken away, or bytes put after it.
#[test]
fn a_damaged_file_is_seen() {
    let program = Program::compiled(EXAMPLE, "lasting_unit_damaged", &[]);
    let mut boat = Boat::new(&program, &SCRIPTS[1], Rng::new(seed(), "damage"));
    boat.start(None).expect("a start");
    let whole = fs::read(boat.file()).expect("the round's file");
    let changed = |at: usize| [&whole[..at], &[whole[at] ^ 1], &whole[at + 1..]].concat();
    let n = boat.script.n;
    let pair = layout::NOTE + layout::store(n);
    let places = [0, 1, 5, layout::NOTE - 1, layout::NOTE, pair - 1, pair, whole.len() - SUM, whole.len() - 1];
    let shorter = [0, 1, layout::NOTE, pair, pair + SUM, whole.len() - 1].map(|len| whole[..len].to_vec());
    let longer = [1, SUM, layout::out(n)].map(|more| [whole.as_slice(), &vec![0; more]].concat());
    for damaged in places.map(changed).into_iter().chain(shorter).chain(longer) {
        fs::write(boat.file(), damaged).expect("a damaged file");
        let told = boat.start(None).err().expect("a damaged file is taken");
        assert!(told.contains("the round's file is"), "{told}");
    }
    fs::write(boat.file(), &whole).expect("the whole file");
    boat.start(None).expect("the whole file is taken");
}

#[test]
fn without_points() {
    runs_well(&Program::compiled(EXAMPLE, "lasting_unit", &[]), None);
}

/// Somewhere in the middle.
const MIDDLE: Option<Cut> = Some(Cut::At(40));

#[test]
fn under_the_sanitizers() {
    runs_well(&Program::with_points(EXAMPLE, "lasting_unit_sanitized", &SANITIZED), MIDDLE);
}

#[test]
fn under_valgrind() {
    if Command::new("valgrind").arg("--version").output().is_err() {
        progress("valgrind isn't installed: the lasting unit runs under the sanitizers alone");
        return;
    }
    let mut program = Program::with_points(EXAMPLE, "lasting_unit_watched", &["-g"]);
    program.watcher = &["valgrind", "--quiet", "--error-exitcode=9", "--leak-check=full"];
    runs_well(&program, MIDDLE);
}
