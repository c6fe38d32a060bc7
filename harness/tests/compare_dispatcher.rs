//! The dispatcher against the reference.
#![cfg(feature = "zolbine")]

use harness::compare::dispatcher;
use harness::library::Library;

#[test]
fn eight_rounds_together() {
    dispatcher::battery(&Library);
}
