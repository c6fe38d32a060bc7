//! The evidence check, evidence from two certificates in hand, the lower of two certificates, and one pack from two.

use super::layout;
use super::messages::{Evidence, EvidenceEntry, Full, FullEntry};
use super::record::{Verdict, Written};
use super::refusals::{arguments, certificate, joined_pack, pack, pass, row, Passed};
use super::seats::mask;

pub fn check_evidence(n: u32, round: u32, keys: &[u8], evidence: &[u8]) -> Verdict {
    let named = || {
        pass(arguments(n, round, keys))?;
        Ok(mask(&pack(n, round, keys, evidence)?.seats()))
    };
    match named() {
        Ok(mask) => Verdict { number: 0, mask },
        Err(number) => Verdict { number, mask: 0 },
    }
}

pub fn make_evidence(n: u32, round: u32, keys: &[u8], first: &[u8], second: &[u8], out: &mut [u8]) -> Written {
    let made = || {
        let short = row(7, || out.len() < layout::evidence_out(n));
        pass(arguments(n, round, keys).into_iter().chain([short]))?;
        let (first, second) = conflicting(n, round, keys, first, second)?;
        Ok(of_conflict(&first, &second).write())
    };
    written(made(), out)
}

/// Refusals 9 to 15 of the first one, then of the second.
pub fn join_evidence(n: u32, round: u32, keys: &[u8], first: &[u8], second: &[u8], out: &mut [u8]) -> Written {
    let joined = || {
        let short = row(7, || out.len() < layout::joined_out(n));
        pass(arguments(n, round, keys).into_iter().chain([short]))?;
        let first = joined_pack(n, round, keys, first)?;
        let second = joined_pack(n, round, keys, second)?;
        Ok(of_either(&first, &second).write())
    };
    written(joined(), out)
}

/// Refuses, or copies the bytes to the start of `out`.
fn written(bytes: Passed<Vec<u8>>, out: &mut [u8]) -> Written {
    match bytes {
        Ok(bytes) => {
            out[..bytes.len()].copy_from_slice(&bytes);
            Written { number: 0, written: bytes.len() as u32 }
        }
        Err(number) => Written { number, written: 0 },
    }
}

/// The certificate with the lower value, of length 0 where the call or either one is refused or they don't conflict.
pub fn lower_certificate<'a>(n: u32, round: u32, keys: &[u8], first: &'a [u8], second: &'a [u8]) -> &'a [u8] {
    let pair = || {
        pass(arguments(n, round, keys))?;
        conflicting(n, round, keys, first, second)
    };
    match pair() {
        Ok((lower, higher)) if lower.value < higher.value => first,
        Ok(_) => second,
        Err(_) => &[],
    }
}

/// Refusals 9 to 14 of the first one, then of the second, then 15.
fn conflicting(n: u32, round: u32, keys: &[u8], first: &[u8], second: &[u8]) -> Passed<(Full, Full)> {
    let first = certificate(n, round, keys, first)?;
    let second = certificate(n, round, keys, second)?;
    pass([row(15, || first.value == second.value)])?;
    Ok((first, second))
}

/// Evidence of the seats in both certificates, each with its two signatures.
pub fn of_conflict(one: &Full, other: &Full) -> Evidence {
    let (lower, higher) = if one.value < other.value { (one, other) } else { (other, one) };
    let shared = |entry: &FullEntry| {
        let twin = higher.entries.iter().find(|twin| twin.seat == entry.seat)?;
        Some(EvidenceEntry {
            seat: entry.seat,
            lower: lower.value,
            higher: higher.value,
            over_lower: entry.signature.clone(),
            over_higher: twin.signature.clone(),
        })
    };
    Evidence { round: lower.round, entries: lower.entries.iter().filter_map(shared).collect() }
}

/// "the seats of either, rising, and a seat found in both has the pair of the pack named first"
fn of_either(first: &Evidence, second: &Evidence) -> Evidence {
    let (mut ours, mut theirs) = (first.entries.iter().peekable(), second.entries.iter().peekable());
    let mut entries = Vec::new();
    while let Some(seat) = [ours.peek(), theirs.peek()].into_iter().flatten().map(|entry| entry.seat).min() {
        let own = ours.next_if(|entry| entry.seat == seat);
        let other = theirs.next_if(|entry| entry.seat == seat);
        entries.extend(own.or(other).cloned());
    }
    Evidence { round: first.round, entries }
}
