//! Load and faults against the reference: nothing crashes, nothing is written outside, every promise holds.
#![cfg(feature = "zolbine")]

use harness::compare::engine::{lists, Subject};
use harness::compare::lengths;
use harness::compare::noise::{self, Subjects};
use harness::library::Library;

const SUBJECTS: Subjects<'static> = Subjects {
    signatures: &Library,
    evidence: &Library,
    engine: Subject { engine: &Library, lent: &Library, notes: &Library },
    making: &Library,
    joining: &Library,
    dispatching: &Library,
};

#[test]
fn whole_rounds_of_the_largest_fleet() {
    lists::whole_rounds(SUBJECTS.engine);
}

#[test]
fn every_buffer_length_around_its_edges() {
    lengths(SUBJECTS);
}

#[test]
fn random_bytes_as_every_operand() {
    noise::battery(SUBJECTS);
}
