//! The length of the first message in a buffer against the reference.
#![cfg(feature = "zolbine")]

use harness::compare::framing;
use harness::library::Library;

#[test]
fn message_length() {
    framing::battery(&Library);
}
