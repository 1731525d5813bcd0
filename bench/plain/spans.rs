//! Covered places, as ranges that neither overlap nor touch.

use std::collections::BTreeMap;

/// The end of each range by its start.
#[derive(Default)]
pub struct Spans(BTreeMap<u64, u64>);

impl Spans {
    /// Covers the places from `from` up to `to`, and tells each gap that it fills.
    pub fn cover(&mut self, from: u64, to: u64, mut fill: impl FnMut(u64, u64)) {
        let (mut start, mut end, mut at) = (from, to, from);
        if let Some((&first, &last)) = self.0.range(..from).next_back()
            && last >= from
        {
            (start, at, end) = (first, last, end.max(last));
        }
        while let Some((&first, &last)) = self.0.range(from..=to).next() {
            if at < first {
                fill(at, first);
            }
            at = at.max(last);
            end = end.max(last);
            self.0.remove(&first);
        }
        if at < to {
            fill(at, to);
        }
        if start < end {
            self.0.insert(start, end);
        }
    }

    /// Whether all places below `to` are covered.
    pub fn is_whole(&self, to: u64) -> bool {
        to == 0 || self.covers(0, to)
    }

    pub fn covers(&self, from: u64, to: u64) -> bool {
        self.0
            .range(..=from)
            .next_back()
            .is_some_and(|(_, &last)| last >= to)
    }

    /// The end of the last range, or 0.
    pub fn end(&self) -> u64 {
        self.0.last_key_value().map_or(0, |(_, &last)| last)
    }

    pub fn ranges(&self) -> impl Iterator<Item = (u64, u64)> {
        self.0.iter().map(|(&first, &last)| (first, last))
    }
}
