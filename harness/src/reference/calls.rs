//! The library's calls over the reference, with the refusals of document 01.

use super::layout::SIGNATURE;
use super::lms::{self, Types, IDENTIFIER, N, PUBLIC_KEY};
use super::record::Written;
use super::refusals::{pass, row, Passed};
use super::verdicts;

pub const MAX_MESSAGE: usize = 65_535;
pub const MAX_LEAF: u32 = 1023;
pub const TREE: usize = 65_536;

fn allowed_key(key: &[u8]) -> bool {
    key.len() == PUBLIC_KEY
        && [[0, 0, 0, 5], [0, 0, 0, 6]].contains(&[key[0], key[1], key[2], key[3]])
        && [[0, 0, 0, 3], [0, 0, 0, 4]].contains(&[key[4], key[5], key[6], key[7]])
}

pub fn check_signature(key: &[u8], message: &[u8], signature: &[u8]) -> u32 {
    let passed = pass([
        row(5, || !allowed_key(key)),
        row(9, || message.len() > MAX_MESSAGE),
        row(14, || !verdicts::verify(key, message, signature)),
    ]);
    passed.err().unwrap_or(0)
}

/// Refuses, or copies the bytes that a call writes to the start of `out`.
pub fn answer(passed: Passed, out: &mut [u8], bytes: impl FnOnce() -> Vec<u8>) -> Written {
    if let Err(number) = passed {
        return Written { number, written: 0 };
    }
    let bytes = bytes();
    out[..bytes.len()].copy_from_slice(&bytes);
    Written { number: 0, written: bytes.len() as u32 }
}

pub fn make_key(seed: &[u8], identifier: &[u8], tree: &mut [u8], out: &mut [u8]) -> Written {
    let wrong_material = seed.len() != N || identifier.len() != IDENTIFIER || tree.len() != TREE;
    let passed = pass([row(7, || out.len() < PUBLIC_KEY), row(16, || wrong_material)]);
    answer(passed, out, || {
        let nodes = lms::tree(Types::ENGINE, identifier, seed);
        tree[N..].copy_from_slice(&nodes.concat());
        lms::public_key(Types::ENGINE, identifier, &nodes[1])
    })
}

/// Reads the path from the lent tree, whatever stands there.
pub fn sign(
    leaf: u32,
    seed: &[u8],
    identifier: &[u8],
    randomizer: &[u8],
    tree: &[u8],
    message: &[u8],
    out: &mut [u8],
) -> Written {
    let wrong_material =
        seed.len() != N || identifier.len() != IDENTIFIER || randomizer.len() != N || tree.len() != TREE;
    let passed = pass([
        row(3, || leaf > MAX_LEAF),
        row(7, || out.len() < SIGNATURE),
        row(9, || message.len() > MAX_MESSAGE),
        row(16, || wrong_material),
    ]);
    answer(passed, out, || {
        let nodes: Vec<Vec<u8>> = tree.chunks(N).map(|node| node.to_vec()).collect();
        lms::sign(Types::ENGINE, &nodes, leaf, seed, identifier, randomizer, message)
    })
}
