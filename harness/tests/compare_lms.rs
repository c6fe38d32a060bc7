//! The library's calls against the reference and the vectors.
#![cfg(feature = "zolbine")]

use harness::compare::{check_signature, make_key, sign};
use harness::library::Library;

#[test]
fn check_of_the_vectors() {
    check_signature::vectors(&Library);
}

#[test]
fn check() {
    check_signature::battery(&Library);
}

#[test]
fn key_maker() {
    make_key::battery(&Library);
}

#[test]
fn signer() {
    sign::battery(&Library);
}
