//! Evidence and the lower certificate from two certificates in hand against the reference.

#[cfg(feature = "zolbine")]
#[test]
fn evidence() {
    use harness::compare::making::{battery, Subject};
    battery(Subject { making: &harness::library::Library, lower: None });
}

/// Through its probe, as a copy.
#[cfg(feature = "probes")]
#[test]
fn lower_certificate() {
    harness::compare::making::copies(&harness::library::Library);
}
