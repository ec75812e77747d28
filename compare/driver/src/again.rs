//! Calls made again at once (REFERENCE 3.10).

use judge::monitor::ACCEPTED;
use judge::report::Call;
use std::collections::BTreeMap;

/// Tells the calls that are the one before over again, where that one was accepted.
#[derive(Default)]
pub struct Again {
    /// How many there were, by number: each is to be accepted, too.
    pub counts: BTreeMap<u64, u64>,
    /// The call before, where it was accepted.
    before: Option<Call>,
}

impl Again {
    /// An input begins.
    pub fn book(&mut self) {
        self.before = None;
    }

    /// Whether this call is one of them.
    pub fn call(&mut self, call: &Call, number: u64) -> bool {
        let again = self.before.as_ref() == Some(call);
        if again {
            *self.counts.entry(number).or_default() += 1;
        }
        self.before = (number == ACCEPTED).then(|| call.clone());
        again
    }
}
