//! The chains of a leaf, which run in lanes, against the reference's one by one, at the edges of their lengths.
#![cfg(feature = "probes")]

use harness::library::Library;
use harness::reference::lmots::{chain, chain_start, Types, IDENTIFIER, N};
use harness::rng::{seed, Rng};

const CHAINS: usize = Types::ENGINE.chains();

/// Digits that are `most` but at the places of `others`.
fn digits(most: u8, others: &[(usize, u8)]) -> Vec<u8> {
    let mut digits = vec![most; CHAINS];
    others.iter().for_each(|&(place, digit)| digits[place] = digit);
    digits
}

#[test]
fn chains() {
    let mut rng = Rng::new(seed(), "chains");
    let mut cases = vec![digits(0, &[]), digits(1, &[]), digits(254, &[]), digits(255, &[])];
    for place in [0, 15, 16, 17, CHAINS - 1] {
        cases.push(digits(0, &[(place, 255)]));
        cases.push(digits(1, &[(place, 255)]));
        cases.push(digits(255, &[(place, 0)]));
    }
    // as many with steps left as go on in lanes, and one fewer
    cases.push(digits(0, &[(3, 64), (9, 65), (16, 255), (33, 255)]));
    cases.push(digits(0, &[(3, 64), (16, 255), (33, 255)]));
    cases.extend((0..40).map(|_| rng.bytes(CHAINS)));
    for digits in cases {
        let (q, identifier, key_seed) = (rng.u32(), rng.bytes(IDENTIFIER), rng.bytes(N));
        let value = |(i, &digit): (usize, &u8)| {
            chain(&identifier, q, i, 0, digit.into(), &chain_start(&identifier, q, i, &key_seed))
        };
        let expected: Vec<u8> = digits.iter().enumerate().flat_map(value).collect();
        let mut out = vec![0; N * CHAINS];
        assert_eq!(Library.signed(q, &identifier, &key_seed, &digits, &mut out), 0);
        assert_eq!(out, expected, "digits {digits:?}");
    }
}

#[test]
fn refusals() {
    let (identifier, key_seed, digits) = ([1; IDENTIFIER], [2; N], [3; CHAINS]);
    let mut out = vec![7; N * CHAINS];
    assert_eq!(Library.signed(0, &identifier, &key_seed, &digits, &mut out[1..]), 7);
    assert_eq!(Library.signed(0, &identifier[1..], &key_seed, &digits, &mut out), 9);
    assert_eq!(Library.signed(0, &identifier, &key_seed[1..], &digits, &mut out), 9);
    assert_eq!(Library.signed(0, &identifier, &key_seed, &digits[1..], &mut out), 9);
    assert_eq!(out, vec![7; N * CHAINS]);
}
