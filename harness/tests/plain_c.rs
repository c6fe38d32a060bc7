//! Plain C, the measure of the proved code's speed, against the reference.

use harness::compare::{check_signature, hashes, make_key, sign};
use harness::plain::Plain;

#[test]
fn digests() {
    hashes::digests(&Plain);
}

#[test]
fn compressions() {
    hashes::compressions(&Plain);
}

#[test]
fn check_of_the_vectors() {
    check_signature::vectors(&Plain);
}

#[test]
fn check() {
    check_signature::battery(&Plain);
}

#[test]
fn key_maker() {
    make_key::battery(&Plain);
}

#[test]
fn signer() {
    sign::battery(&Plain);
}
