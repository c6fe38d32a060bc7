//! The conditions of the documents' table that several calls share, and the order in which they count.

use super::calls::MAX_LEAF;
use super::lms::PUBLIC_KEY;
use super::messages::{signed_bytes, Evidence, Full, Signed, Told, OLD_EVIDENCE};
use super::quorum;
use super::verdicts;

/// The table's numbers in the order in which they count: "The lowest number whose condition holds is returned". "Number 13 no
/// longer occurs." 17 "comes before 4"; 18 and 19 "come after 4, in that order".
pub const ORDER: &[u32] = &[1, 2, 3, 17, 4, 5, 6, 7, 8, 9, 10, 11, 12, 14, 15, 16, 18, 19];

/// The table's words.
pub fn word(number: u32) -> &'static str {
    match number {
        1 => "size",
        2 => "seat",
        3 => "round",
        4 => "record",
        5 => "keys",
        6 => "store",
        7 => "out",
        8 => "said",
        9 => "garbled",
        10 => "other round",
        11 => "stranger",
        12 => "disorder",
        14 => "signature",
        15 => "no conflict",
        16 => "key material",
        17 => "note",
        18 => "lane",
        19 => "full",
        other => panic!("no number of the table: {other}"),
    }
}

/// The place of a number in the order.
pub fn place(number: u32) -> usize {
    ORDER.iter().position(|&other| other == number).expect("a number of the table")
}

/// A row of the table: a number, and the test of its condition. It is tested only where no condition before it in the order
/// holds.
pub type Row<'a> = (u32, Box<dyn Fn() -> bool + 'a>);

pub fn row<'a>(number: u32, condition: impl Fn() -> bool + 'a) -> Row<'a> {
    (number, Box::new(condition))
}

/// Nothing, or the refusal's number.
pub type Passed<T = ()> = Result<T, u32>;

/// Refuses with the first number in the order whose condition holds.
pub fn pass<'a>(rows: impl IntoIterator<Item = Row<'a>>) -> Passed {
    let mut ordered: Vec<Row> = rows.into_iter().collect();
    ordered.sort_by_key(|(number, _)| place(*number));
    match ordered.iter().find(|(_, holds)| holds()) {
        Some((number, _)) => Err(*number),
        None => Ok(()),
    }
}

/// 1, 3 and 5: the arguments of a call outside a record.
pub fn arguments(n: u32, round: u32, keys: &[u8]) -> Vec<Row<'_>> {
    vec![row(1, move || !is_size(n)), row(3, move || round > MAX_LEAF), key_table(n, keys)]
}

pub fn is_size(n: u32) -> bool {
    (1..=32).contains(&n)
}

/// 5: the length is exact, and every key is of types 6 and 4.
pub fn key_table(n: u32, keys: &[u8]) -> Row<'_> {
    row(5, move || {
        keys.len() != PUBLIC_KEY * n as usize || keys.chunks(PUBLIC_KEY).any(|key| key[..8] != [0, 0, 0, 6, 0, 0, 0, 4])
    })
}

/// 9 to 12 and 14 of a message: its round, every seat in it, the order of its entries, its signatures. Of a garbled one
/// nothing is told.
pub fn message<'a>(n: u32, round: u32, keys: &'a [u8], told: &'a Option<Told<'a>>) -> Vec<Row<'a>> {
    let Some(told) = told else {
        return vec![row(9, || true)];
    };
    vec![
        row(10, move || told.round != round),
        row(11, move || told.sender.iter().chain(&told.entries).any(|&seat| seat >= n)),
        row(12, || told.entries.windows(2).any(|pair| pair[0] >= pair[1])),
        row(14, move || told.signatures.iter().any(|signed| !checks(keys, round, signed))),
    ]
}

/// RFC 8554 accepts the signature of a seat over a value, and its leaf is the round.
pub fn checks(keys: &[u8], round: u32, &(seat, value, signature): &Signed) -> bool {
    let key = &keys[PUBLIC_KEY * seat as usize..][..PUBLIC_KEY];
    signature[..4] == round.to_be_bytes() && verdicts::verify(key, &signed_bytes(round, seat, value), signature)
}

/// 9 to 14 of a FULL.
pub fn certificate(n: u32, round: u32, keys: &[u8], bytes: &[u8]) -> Passed<Full> {
    let full = Full::read(bytes, quorum::k(n));
    pass(message(n, round, keys, &full.as_ref().map(Full::told)))?;
    Ok(full.expect("a garbled one is refused"))
}

/// 9 to 15 of an EVIDENCE of either command.
pub fn pack(n: u32, round: u32, keys: &[u8], evidence: &[u8]) -> Passed<Evidence> {
    let read = Evidence::read(evidence, n);
    let told = read.as_ref().map(Evidence::told);
    let no_conflict = row(15, || read.iter().flat_map(|read| &read.entries).any(|entry| entry.lower >= entry.higher));
    pass(message(n, round, keys, &told).into_iter().chain([no_conflict]))?;
    Ok(read.expect("a garbled one is refused"))
}

/// The same of one that is to be joined: "a 0x05 pack is 9 here".
pub fn joined_pack(n: u32, round: u32, keys: &[u8], evidence: &[u8]) -> Passed<Evidence> {
    pass([row(9, || evidence.first() == Some(&OLD_EVIDENCE))])?;
    pack(n, round, keys, evidence)
}
