//! Every stored job is answered byte for byte by the plain implementation.
mod stored;

#[test]
fn stored_jobs() {
    for stored in stored::stored() {
        assert!(crustedlane::plain::job(&stored.job) == stored.answer, "{}", stored.name);
    }
}
