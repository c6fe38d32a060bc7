//! Known answers of SHA-256.

use crate::hex;

/// Messages and their digests: the known answers of FIPS 180-4, then data/sha256-lengths.txt.
pub fn known() -> Vec<(Vec<u8>, Vec<u8>)> {
    let standard = [
        ("", "e3b0c44298fc1c149afbf4c8996fb92427ae41e4649b934ca495991b7852b855"),
        ("abc", "ba7816bf8f01cfea414140de5dae2223b00361a396177a9cb410ff61f20015ad"),
        (
            "abcdbcdecdefdefgefghfghighijhijkijkljklmklmnlmnomnopnopq",
            "248d6a61d20638b8e5c026930c3e6039a33ce45964ff2167f6ecedd419db06c1",
        ),
    ];
    let made = include_str!("../data/sha256-lengths.txt").lines().filter(|line| !line.starts_with('#'));
    let by_length = made.map(|line| {
        let (length, digest) = line.split_once(' ').expect("length and digest");
        (message(length.parse().expect("a length")), hex::decode(digest))
    });
    standard
        .iter()
        .map(|(message, digest)| (message.as_bytes().to_vec(), hex::decode(digest)))
        .chain(by_length)
        .collect()
}

/// The message of the file's first line.
fn message(length: usize) -> Vec<u8> {
    (0..length).map(|i| (7 * i + length + i / 256) as u8).collect()
}
