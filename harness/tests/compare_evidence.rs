//! The evidence check against the reference.
#![cfg(feature = "zolbine")]

use harness::compare::evidence;
use harness::library::Library;

#[test]
fn check() {
    evidence::battery(&Library);
}
