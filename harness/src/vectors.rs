//! Reading the files of vectors/.

use crate::hex;
use crate::reference::lms::Types;
use crate::reference::record::Verdict;
use crate::terms;

/// A public key, a message and a signature with the expected verdict.
pub struct Record {
    pub accept: bool,
    pub name: String,
    pub key: Vec<u8>,
    pub message: Vec<u8>,
    pub signature: Vec<u8>,
    /// The damage to a record, and the step of the RFC that rejects it.
    pub comment: String,
    /// The parameters of the signature's making, where the file has them.
    pub made: Option<Made>,
}

pub struct Made {
    pub types: Types,
    pub identifier: Vec<u8>,
    pub seed: Vec<u8>,
    pub q: u32,
    pub randomizer: Vec<u8>,
}

impl Record {
    /// The answer of the library's check. The first two steps of Algorithm 6 are about the key alone.
    pub fn number(&self) -> u32 {
        let about_the_key = ["[lms.py: 6-1 ", "[lms.py: 6-2"];
        match self.accept {
            true => 0,
            false if about_the_key.iter().any(|step| self.comment.contains(step)) => 5,
            false => 14,
        }
    }
}

/// `name = value` pairs.
pub struct Fields(Vec<(String, String)>);

impl Fields {
    fn of<'a>(pairs: impl Iterator<Item = (&'a str, &'a str)>) -> Fields {
        Fields(pairs.map(|(name, value)| (name.to_string(), value.to_string())).collect())
    }

    pub fn get(&self, name: &str) -> Option<&str> {
        self.0.iter().find(|(key, _)| key == name).map(|(_, value)| value.as_str())
    }

    pub fn bytes(&self, name: &str) -> Vec<u8> {
        bytes(self.get(name).unwrap_or_else(|| panic!("no field {name}")))
    }

    fn number(&self, name: &str) -> u32 {
        self.get(name).and_then(|value| value.parse().ok()).unwrap_or_else(|| panic!("no {name}"))
    }

    fn made(&self, lms_name: &str, ots_name: &str) -> Option<Made> {
        let seed = bytes(self.get("SEED")?);
        let types = Types::of(self.number(lms_name), self.number(ots_name)).expect("types that the reference knows");
        let (identifier, q, randomizer) = (self.bytes("I"), self.number("q"), self.bytes("C"));
        Some(Made { types, identifier, seed, q, randomizer })
    }
}

fn read(file: &str) -> String {
    let path = format!("{}/../vectors/{file}", env!("CARGO_MANIFEST_DIR"));
    std::fs::read_to_string(&path).unwrap_or_else(|error| panic!("{path}: {error}"))
}

fn bytes(field: &str) -> Vec<u8> {
    if field == "-" {
        Vec::new()
    } else {
        hex::decode(field)
    }
}

/// The records of a file of lines `expect name key msg sig`, each with the comment before it.
pub fn lines(file: &str) -> Vec<Record> {
    let mut comment = "";
    let mut records = Vec::new();
    let text = read(file);
    for line in text.lines() {
        if let Some(text) = line.strip_prefix("# ") {
            comment = text;
            continue;
        }
        let fields: Vec<&str> = line.split(' ').collect();
        let &[expect, name, key, message, signature] = fields.as_slice() else {
            panic!("{file}: a record has five fields: {line}");
        };
        records.push(Record {
            accept: match expect {
                "accept" => true,
                "reject" => false,
                _ => panic!("{file}: accept or reject, not {expect}"),
            },
            name: name.to_string(),
            key: bytes(key),
            message: bytes(message),
            signature: bytes(signature),
            comment: comment.to_string(),
            made: Fields::of(comment.split(' ').filter_map(|word| word.split_once('='))).made("lms", "ots"),
        });
    }
    records
}

pub fn rfc_blocks() -> Vec<Fields> {
    blocks("rfc8554-vectors.txt")
}

/// The blocks of a file, each parted from the next by an empty line.
fn blocks(file: &str) -> Vec<Fields> {
    let text = read(file);
    let blocks = text.split("\n\n").map(|block| {
        let lines = block.lines().filter(|line| !line.starts_with('#'));
        Fields::of(lines.filter_map(|line| line.split_once(" = ")))
    });
    blocks.filter(|block| !block.0.is_empty()).collect()
}

/// The RFC's test cases taken apart level by level, with the seeds of Test Case 2.
pub fn rfc_levels() -> Vec<Record> {
    let blocks = rfc_blocks();
    let levels = blocks.iter().filter(|block| block.get("lms_public").is_some());
    let records = levels.map(|level| Record {
        accept: true,
        name: level.get("record").expect("a name").to_string(),
        key: level.bytes("lms_public"),
        message: level.bytes("message"),
        signature: level.bytes("lms_signature"),
        comment: String::new(),
        made: level.made("lms_type", "ots_type"),
    });
    records.collect()
}

/// A pack of evidence, and the answer that the check of the commit that made it gave.
#[derive(Clone)]
pub struct Pack {
    pub what: String,
    pub n: u32,
    pub round: u32,
    pub keys: Vec<u8>,
    pub evidence: Vec<u8>,
    pub answer: Verdict,
}

/// The packs of old-evidence.txt. A block with a change is about the last whole one, with some bytes changed.
pub fn old_evidence() -> Vec<Pack> {
    let mut packs = Vec::new();
    let mut whole: Option<Pack> = None;
    for block in blocks("old-evidence.txt") {
        let mask = block.bytes("mask").try_into().expect("a mask of 32 bits");
        let answer = Verdict { number: block.number("number"), mask: u32::from_be_bytes(mask) };
        let pack = if let Some(change) = block.get("change") {
            let mut pack = Pack { answer, ..whole.clone().expect("a pack before a change") };
            let mut words = change.split_whitespace().peekable();
            while let Some(word) = words.next() {
                assert_eq!(terms::change(word, &mut words, &mut pack.evidence), Ok(true), "{change}");
            }
            pack.what += &format!(", {change}");
            pack
        } else {
            let what = block.get("pack").expect("a pack or a change").to_string();
            let (n, round) = (block.number("n"), block.number("round"));
            let (keys, evidence) = (block.bytes("keys"), block.bytes("evidence"));
            whole.insert(Pack { what, n, round, keys, evidence, answer }).clone()
        };
        packs.push(pack);
    }
    packs
}
