//! LM-OTS (RFC 8554, section 4) over SHA-256 with n = m = 32 and widths 4 and 8, and the types of keys.
//! Byte strings are `Vec<u8>` and every hash is written as the RFC writes it.

use super::sha256;

pub const N: usize = 32;
pub const IDENTIFIER: usize = 16;

const D_PBLC: u16 = 0x8080;
const D_MESG: u16 = 0x8181;

/// A pairing of an LMS type with an LM-OTS type.
#[derive(Clone, Copy, Debug, PartialEq, Eq)]
pub struct Types {
    pub lms: u32,
    pub ots: u32,
    /// The height of the tree.
    pub h: u32,
    /// The width of a digit in bits.
    pub w: u32,
}

impl Types {
    /// The engine's pairing: height 10 and width 8.
    pub const ENGINE: Types = Types::of(6, 4).unwrap();

    /// Tables 1 and 2; none for a type outside this page.
    pub const fn of(lms: u32, ots: u32) -> Option<Types> {
        let h = match lms {
            5 => 5,
            6 => 10,
            _ => return None,
        };
        let w = match ots {
            3 => 4,
            4 => 8,
            _ => return None,
        };
        Some(Types { lms, ots, h, w })
    }

    pub fn all() -> Vec<Types> {
        let pairings = [(5, 3), (5, 4), (6, 3), (6, 4)];
        pairings.iter().map(|&(lms, ots)| Types::of(lms, ots).unwrap()).collect()
    }

    /// Digits of a message digest (Appendix B: u).
    pub const fn digest_digits(self) -> usize {
        8 * N / self.w as usize
    }

    /// Digits of the checksum (Appendix B: v).
    pub const fn checksum_digits(self) -> usize {
        let largest = ((1 << self.w) - 1) * self.digest_digits() as u32;
        (largest.ilog2() + 1).div_ceil(self.w) as usize
    }

    /// The checksum's left shift (Appendix B: ls).
    pub const fn shift(self) -> u32 {
        16 - self.checksum_digits() as u32 * self.w
    }

    /// Chains of a one-time signature (Appendix B: p).
    pub const fn chains(self) -> usize {
        self.digest_digits() + self.checksum_digits()
    }

    /// The last place of a chain: 2^w - 1.
    pub const fn last_place(self) -> u32 {
        (1 << self.w) - 1
    }

    pub const fn leaves(self) -> u32 {
        1 << self.h
    }

    pub const fn ots_signature(self) -> usize {
        4 + N * (self.chains() + 1)
    }

    /// The places of a signature's lms type and of its path.
    pub const fn lms_type_at(self) -> usize {
        4 + self.ots_signature()
    }

    pub const fn path_at(self) -> usize {
        self.lms_type_at() + 4
    }

    pub const fn signature(self) -> usize {
        self.path_at() + N * self.h as usize
    }
}

pub fn hash(parts: &[&[u8]]) -> Vec<u8> {
    sha256::digest(&parts.concat())
}

pub fn u32_at(bytes: &[u8], at: usize) -> u32 {
    u32::from_be_bytes([bytes[at], bytes[at + 1], bytes[at + 2], bytes[at + 3]])
}

/// The i-th w-bit digit of a byte string, counted from the left (section 3.1.3).
pub fn coef(s: &[u8], i: usize, w: u32) -> u32 {
    let i = i as u32;
    let byte = u32::from(s[(i * w / 8) as usize]);
    ((1 << w) - 1) & (byte >> (8 - (w * (i % (8 / w)) + w)))
}

/// Algorithm 2.
pub fn checksum(digest: &[u8], types: Types) -> u16 {
    let mut sum = 0;
    for i in 0..types.digest_digits() {
        sum += types.last_place() - coef(digest, i, types.w);
    }
    u16::try_from(sum << types.shift()).unwrap()
}

/// The digits that a signature's chains are walked to: those of the digest, then those of its checksum.
pub fn digits(digest: &[u8], types: Types) -> Vec<u32> {
    let with_checksum = [digest, &checksum(digest, types).to_be_bytes()].concat();
    (0..types.chains()).map(|i| coef(&with_checksum, i, types.w)).collect()
}

/// Chain i of leaf q, walked from place `from` to place `to`.
pub fn chain(identifier: &[u8], q: u32, i: usize, from: u32, to: u32, start: &[u8]) -> Vec<u8> {
    let mut value = start.to_vec();
    for j in from..to {
        value = hash(&[identifier, &q.to_be_bytes(), &(i as u16).to_be_bytes(), &[j as u8], &value]);
    }
    value
}

/// The start of chain i of leaf q (Appendix A).
pub fn chain_start(identifier: &[u8], q: u32, i: usize, seed: &[u8]) -> Vec<u8> {
    hash(&[identifier, &q.to_be_bytes(), &(i as u16).to_be_bytes(), &[0xff], seed])
}

fn ots_key_of_ends(identifier: &[u8], q: u32, ends: &[Vec<u8>]) -> Vec<u8> {
    hash(&[identifier, &q.to_be_bytes(), &D_PBLC.to_be_bytes(), &ends.concat()])
}

/// K of leaf q (Algorithm 1).
pub fn ots_key(types: Types, identifier: &[u8], q: u32, seed: &[u8]) -> Vec<u8> {
    let mut ends = Vec::new();
    for i in 0..types.chains() {
        let start = chain_start(identifier, q, i, seed);
        ends.push(chain(identifier, q, i, 0, types.last_place(), &start));
    }
    ots_key_of_ends(identifier, q, &ends)
}

pub fn message_digest(identifier: &[u8], q: u32, randomizer: &[u8], message: &[u8]) -> Vec<u8> {
    hash(&[identifier, &q.to_be_bytes(), &D_MESG.to_be_bytes(), randomizer, message])
}

/// Algorithm 3.
pub fn ots_sign(types: Types, identifier: &[u8], q: u32, seed: &[u8], randomizer: &[u8], message: &[u8]) -> Vec<u8> {
    let digest = message_digest(identifier, q, randomizer, message);
    let mut signature = [&types.ots.to_be_bytes(), randomizer].concat();
    for (i, digit) in digits(&digest, types).into_iter().enumerate() {
        let start = chain_start(identifier, q, i, seed);
        signature.extend(chain(identifier, q, i, 0, digit, &start));
    }
    signature
}

/// Algorithm 4b; none is the RFC's INVALID.
pub fn ots_candidate(types: Types, identifier: &[u8], q: u32, message: &[u8], signature: &[u8]) -> Option<Vec<u8>> {
    if signature.len() < 4 {
        return None;
    }
    if u32_at(signature, 0) != types.ots {
        return None;
    }
    if signature.len() != types.ots_signature() {
        return None;
    }
    let randomizer = &signature[4..4 + N];
    let digest = message_digest(identifier, q, randomizer, message);
    let mut ends = Vec::new();
    for (i, digit) in digits(&digest, types).into_iter().enumerate() {
        let at = 4 + N * (i + 1);
        ends.push(chain(identifier, q, i, digit, types.last_place(), &signature[at..at + N]));
    }
    Some(ots_key_of_ends(identifier, q, &ends))
}
