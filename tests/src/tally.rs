//! Counts of what was seen, so that a test can assert that it saw enough.

use std::collections::BTreeMap;
use std::io::Write;

/// How often each value of each property was seen: of a call its answers, of
/// inputs what they were like.
#[derive(Default)]
pub struct Tally {
    counts: BTreeMap<(&'static str, u64), u64>,
}

/// Up to so many values of a property are printed one by one.
const LISTED: usize = 16;

fn as_u64(value: impl TryInto<u64>) -> u64 {
    value.try_into().ok().expect("a value that is not negative")
}

impl Tally {
    pub fn count(&mut self, property: &'static str, value: impl TryInto<u64>) {
        let key = (property, as_u64(value));
        *self.counts.entry(key).or_default() += 1;
    }

    /// How often this value was seen.
    pub fn seen(&self, property: &'static str, value: impl TryInto<u64>) -> u64 {
        let key = (property, as_u64(value));
        self.counts.get(&key).copied().unwrap_or(0)
    }

    /// The values seen, rising, each with how often.
    fn values(&self, property: &'static str) -> impl Iterator<Item = (u64, u64)> + '_ {
        let range = self.counts.range((property, 0)..=(property, u64::MAX));
        range.map(|((_, value), count)| (*value, *count))
    }

    /// How often any value was seen.
    pub fn total(&self, property: &'static str) -> u64 {
        self.values(property).map(|(_, count)| count).sum()
    }

    /// The greatest value seen.
    pub fn greatest(&self, property: &'static str) -> Option<u64> {
        self.values(property).map(|(value, _)| value).last()
    }

    /// Each of these values was seen so often at least.
    pub fn assert_often<V: TryInto<u64>>(
        &self,
        property: &'static str,
        values: impl IntoIterator<Item = V>,
        least: u64,
    ) {
        for value in values {
            let value = as_u64(value);
            let seen = self.seen(property, value);
            assert!(seen >= least, "{property} {value} seen {seen} times");
        }
    }

    /// No other values than these were seen.
    pub fn assert_only<V: TryInto<u64>>(
        &self,
        property: &'static str,
        values: impl IntoIterator<Item = V>,
    ) {
        let allowed: Vec<u64> = values.into_iter().map(as_u64).collect();
        for (value, _) in self.values(property) {
            assert!(allowed.contains(&value), "{property} {value} seen");
        }
    }

    /// Past the harness, which would keep a passing test's lines to itself.
    pub fn print(&self, title: &str) {
        let mut properties: Vec<&'static str> = self.counts.keys().map(|key| key.0).collect();
        properties.dedup();
        let mut text = format!("\n{title}\n");
        for property in properties {
            let (total, values) = (self.total(property), self.listed(property));
            text += &format!("  {property}: {total} in all: {values}\n");
        }
        let mut out = std::io::stdout().lock();
        out.write_all(text.as_bytes()).expect("standard output");
    }

    fn listed(&self, property: &'static str) -> String {
        let values: Vec<(u64, u64)> = self.values(property).collect();
        if values.len() > LISTED {
            let (least, greatest) = (values[0].0, values[values.len() - 1].0);
            return format!("from {least} to {greatest}");
        }
        let values = values.iter();
        let values: Vec<String> = values
            .map(|(value, count)| format!("{value} * {count}"))
            .collect();
        values.join(", ")
    }
}
