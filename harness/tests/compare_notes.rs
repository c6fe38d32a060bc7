//! The note of a record, written and read, against the reference.
#![cfg(feature = "zolbine")]

use harness::compare::notes;
use harness::library::Library;

#[test]
fn notes_of_records() {
    notes::battery(&Library);
}
