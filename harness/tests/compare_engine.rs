//! Opening, submit and step against the reference.
#![cfg(feature = "zolbine")]

use harness::compare::engine::{culprits, kept, lists, opening, power, records, refusals, Subject};
use harness::library::Library;

const SUBJECT: Subject<'static> = Subject { engine: &Library, lent: &Library, notes: &Library };

#[test]
fn openings() {
    opening::battery(&Library);
}

#[test]
fn impossible_and_possible_records() {
    records::battery(SUBJECT);
}

#[test]
fn refusals_alone_and_together() {
    refusals::battery(SUBJECT);
}

#[test]
fn submits_before_the_own() {
    kept::battery(SUBJECT);
}

#[test]
fn culprits_of_many_certificates() {
    culprits::battery(SUBJECT);
}

#[test]
fn units_that_lose_power() {
    power::battery(SUBJECT);
}

#[test]
fn random_lists() {
    lists::battery(SUBJECT);
}
