//! Steps by the number of nodes.

use crate::bounds::Asked;
use crate::report::Report;
use std::collections::BTreeMap;
use std::ops::RangeInclusive;

#[derive(Clone, Copy, Default)]
struct Steps {
    accepted: usize,
    refused: usize,
}

#[derive(Default)]
pub struct Sizes(BTreeMap<usize, Steps>);

impl Sizes {
    pub fn count(&mut self, n: usize, accepted: bool) {
        let steps = self.0.entry(n).or_default();
        steps.accepted += usize::from(accepted);
        steps.refused += usize::from(!accepted);
    }

    /// The steps on each range of sizes, and how many sizes were met.
    pub fn report(&self, name: &str, asked: &[Asked], sizes: usize, report: &mut Report) {
        for asked in asked {
            let of = range_name(name, &asked.nodes);
            let within = || self.0.range(asked.nodes.clone()).map(|(_, steps)| steps);
            let accepted = within().map(|steps| steps.accepted).sum();
            let refused = within().map(|steps| steps.refused).sum();
            report.at_least(format!("{of}: steps accepted"), accepted, asked.accepted);
            report.at_least(format!("{of}: steps refused"), refused, asked.refused);
        }
        let met = self.0.values().filter(|steps| steps.accepted > 0).count();
        report.at_least(format!("{name}: sizes with accepted steps"), met, sizes);
    }
}

/// `ring of 1`, `ring of 2 to 8`.
pub fn range_name(name: &str, nodes: &RangeInclusive<usize>) -> String {
    let (first, last) = (nodes.start(), nodes.end());
    if first == last {
        format!("{name} of {first}")
    } else {
        format!("{name} of {first} to {last}")
    }
}
