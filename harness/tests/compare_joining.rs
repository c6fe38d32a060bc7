//! Two packs joined, against the reference.
#![cfg(feature = "zolbine")]

use harness::compare::joining::{battery, Subject};
use harness::library::Library;

#[test]
fn one_pack_from_two() {
    battery(Subject { joining: &Library, evidence: &Library });
}
