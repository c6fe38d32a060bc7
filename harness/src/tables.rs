//! A search for SHA-256's round constants: in an archive, in each form that a table of them can take, and in source. And for a list of
//! their primes, and for memory in which an archive could keep them from call to call.
//!
//! Chance is reckoned for an archive of 85,000 random bytes.

use std::collections::{BTreeMap, BTreeSet, HashMap};

use crate::archive::Section;
use crate::reference::sha256::K;

#[derive(Clone, Copy, Debug, PartialEq, Eq)]
pub enum Form {
    /// A constant itself: in data, in lanes or as an immediate in code.
    Word,
    /// The difference of a constant and the one before it.
    Step,
    /// Constants that are changed by one mask.
    Masked,
    /// The high or the low halves of constants, masked or not.
    Halves,
    /// One byte of each constant, in order.
    Quarters,
    /// The primes in order, or the steps from each to the next.
    Primes,
    /// Memory that outlasts a call.
    Kept,
}

#[derive(Debug)]
pub struct Find {
    pub form: Form,
    pub section: String,
    pub what: String,
}

pub fn finds(sections: &[Section]) -> Vec<Find> {
    let mut finds = masked(sections);
    let known = known_rows();
    for Section { name, writable, length, bytes } in sections {
        let kept = (*writable && *length > 0).then(|| format!("{length} bytes to write to"));
        let found = [
            listed(bytes, Form::Word, &K),
            listed(bytes, Form::Step, &steps()),
            halves(bytes),
            row(bytes, &known),
            kept.map(|what| (Form::Kept, what)),
        ];
        let find = |(form, what)| Find { form, section: name.clone(), what };
        finds.extend(found.into_iter().flatten().map(find));
    }
    finds
}

/// The constants that a text spells, in hexadecimal or decimal digits.
pub fn spelled(text: &str) -> Vec<u32> {
    let text = text.replace('_', "").to_lowercase();
    K.into_iter().filter(|word| text.contains(&format!("{word:x}")) || text.contains(&word.to_string())).collect()
}

#[derive(Clone, Copy, Debug)]
enum Order {
    LittleEndian,
    BigEndian,
}

const ORDERS: [Order; 2] = [Order::LittleEndian, Order::BigEndian];

impl Order {
    fn number(self, bytes: &[u8]) -> u64 {
        let longer = |number, &byte: &u8| number << 8 | u64::from(byte);
        match self {
            Order::LittleEndian => bytes.iter().rev().fold(0, longer),
            Order::BigEndian => bytes.iter().fold(0, longer),
        }
    }

    /// The numbers of `width` bytes that stand at each byte.
    fn numbers(self, bytes: &[u8], width: usize) -> impl Iterator<Item = u64> + '_ {
        bytes.windows(width).map(move |number| self.number(number))
    }

    /// The words that begin at each byte, or `shift` bits beside it.
    fn words(self, bytes: &[u8], shift: usize) -> impl Iterator<Item = u32> + '_ {
        self.numbers(bytes, (32 + shift).div_ceil(8)).map(move |number| (number >> shift) as u32)
    }
}

/// So many constants that agree are a find, whatever their order and their distance. The words and the constants give 5.4 million
/// masks of each kind, and eight of them are the same by chance in one of 10^17 archives. Eight words of one list are rarer still.
const AGREEING: usize = 8;

/// Words of a list, all at a byte or all as many bits beside it, as in packed bits or in roots with other fractions. One constant at a
/// byte is a find, since a compiler that knows a prime can work out its constant; one of 400 archives has one by chance.
fn listed(bytes: &[u8], form: Form, list: &[u32]) -> Option<(Form, String)> {
    let mut places = ORDERS.into_iter().flat_map(|order| (0..8).map(move |shift| (order, shift)));
    places.find_map(|(order, shift)| {
        let words = order.words(bytes, shift).zip(0..);
        let found: BTreeMap<u32, usize> = words.filter(|(word, _)| list.contains(word)).collect();
        let enough = if form == Form::Word && shift == 0 { 1 } else { AGREEING };
        let (word, at) = found.first_key_value()?;
        let what = format!("{} words, {word:#010x} at {at:#x} among them, {shift} bits off, {order:?}", found.len());
        (found.len() >= enough).then_some((form, what))
    })
}

fn steps() -> Vec<u32> {
    let step = |pair: &[u32]| [pair[0] ^ pair[1], pair[1].wrapping_sub(pair[0]), pair[0].wrapping_sub(pair[1])];
    K.windows(2).flat_map(step).collect()
}

/// The mask by which a constant becomes a word.
type Mask = fn(word: u32, constant: u32) -> u32;

const MASKS: [(&str, Mask); 3] = [
    ("xor", |word, constant| word ^ constant),
    ("plus", |word, constant| word.wrapping_sub(constant)),
    ("taken from", |word, constant| word.wrapping_add(constant)),
];

fn masked(sections: &[Section]) -> Vec<Find> {
    let mut finds = Vec::new();
    for order in ORDERS {
        let words: BTreeSet<u32> = sections.iter().flat_map(|section| order.words(&section.bytes, 0)).collect();
        for (name, mask) in MASKS {
            let mut masks: Vec<(u32, u32)> =
                words.iter().flat_map(|&word| K.map(|constant| (mask(word, constant), word))).collect();
            masks.sort_unstable();
            for agreeing in masks.chunk_by(|one, next| one.0 == next.0).filter(|agreeing| agreeing.len() >= AGREEING) {
                let (number, word) = agreeing[0];
                let holds = |section: &&Section| order.words(&section.bytes, 0).any(|other| other == word);
                let section = sections.iter().find(holds).expect("a section has the word");
                let what = format!("{} constants {name} {number:#010x}, {order:?}", agreeing.len());
                finds.push(Find { form: Form::Masked, section: section.name.clone(), what });
            }
        }
    }
    finds
}

/// So many halves that agree on a mask are a find where they stand within NEAR bytes, the length of all 64 in 16 lanes. Under a given
/// mask each half stands there by chance one time in 16, and 32 do under some mask in one of 10^13 archives.
const MANY: u8 = 32;
const NEAR: usize = 4096;

fn halves(bytes: &[u8]) -> Option<(Form, String)> {
    for at in (0..bytes.len()).step_by(NEAR / 2) {
        let near = &bytes[at..bytes.len().min(at + NEAR)];
        for order in ORDERS {
            for (name, mask) in MASKS {
                for (which, shift) in [("high", 16), ("low", 0)] {
                    let (count, number) = most_agreeing(near, order, mask, K.map(|word| word >> shift));
                    if count >= MANY {
                        let what = format!("{count} {which} halves {name} {number:#06x} from {at:#x} on, {order:?}");
                        return Some((Form::Halves, what));
                    }
                }
            }
        }
    }
    None
}

/// How many halves agree on the mask that most of them agree on, and that mask.
fn most_agreeing(near: &[u8], order: Order, mask: Mask, halves: [u32; 64]) -> (u8, usize) {
    let there: BTreeSet<u64> = order.numbers(near, 2).collect();
    let mut agreeing = vec![0; 1 << 16];
    for half in there {
        halves.iter().for_each(|&constant| agreeing[usize::from(mask(half as u32, constant) as u16)] += 1);
    }
    agreeing.into_iter().zip(0..).max().expect("masks")
}

/// So many bytes in a row are a find, each as far after the one before it, up to APART bytes: 16 lanes or some code may stand between.
/// They stand so by chance in one of 10^14 archives.
const ROW: usize = 10;
const APART: usize = 64;

pub fn primes() -> Vec<u32> {
    (2..312).filter(|number| (2..*number).all(|divisor| number % divisor != 0)).collect()
}

fn known_rows() -> HashMap<[u8; ROW], Form> {
    let primes = primes();
    let steps = primes.windows(2).map(|pair| (pair[1] - pair[0]) as u8).collect();
    let mut lists = vec![(Form::Primes, primes.iter().map(|&prime| prime as u8).collect()), (Form::Primes, steps)];
    lists.extend([0, 8, 16, 24].map(|shift| (Form::Quarters, K.map(|word| (word >> shift) as u8).to_vec())));
    let mut rows = HashMap::new();
    for (form, list) in lists {
        rows.extend(list.windows(ROW).map(|row| (row.try_into().expect("a row"), form)));
    }
    rows
}

fn row(bytes: &[u8], known: &HashMap<[u8; ROW], Form>) -> Option<(Form, String)> {
    (1..=APART).find_map(|apart| {
        let row = |at: usize| std::array::from_fn(|i| bytes[at + i * apart]);
        let mut places = 0..bytes.len().saturating_sub((ROW - 1) * apart);
        places.find_map(|at| Some((*known.get(&row(at))?, format!("{ROW} in a row from {at:#x} on, {apart} apart"))))
    })
}
