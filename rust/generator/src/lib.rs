// SPDX-License-Identifier: Apache-2.0 OR MIT
//! Model files that try the payout checker: contracts that are accepted, the
//! same one change away, files around every limit, and damaged files.

mod backing;
mod change;
mod condition;
pub mod construct;
mod damage;
mod expression;
mod limit;
mod naming;
pub mod random;
mod reserve;
mod scenario;
mod worked;

use construct::bytes;
use model_file::{tag, Field};
use random::Random;
pub use worked::{worked, Worked};

/// The file of this seed; always the same one.
pub fn file(seed: u64) -> Vec<u8> {
    let random = &mut Random::new(seed);
    match random.below(1000) {
        0..=5 => limit::size(random),
        6..=25 => bytes(&limit::depth(random)),
        26..=33 => bytes(&limit::entries(random)),
        34..=65 => bytes(&limit::payouts(random)),
        66..=75 => damage::noise(random),
        76..=225 => {
            let fields = model(random);
            damage::damaged(random, fields)
        }
        _ => bytes(&model(random)),
    }
}

/// The fields of a model: a scenario with a few changes, and copies of its
/// entries with a change each.
fn model(random: &mut Random) -> Vec<Field> {
    let mut fields = scenario::scenario(random);
    if random.percent(8) {
        naming::lengthen(random, &mut fields);
    }
    for _ in 0..random.pick(&[0, 0, 1, 1, 1, 1, 1, 2, 2, 3]) {
        change::change(random, &mut fields);
    }
    for _ in 0..random.pick(&[0, 0, 0, 1, 2, 3]) {
        let entry = change::any(random, &mut fields, |f| f.tag == tag::ENTRY).cloned();
        let mut copy: Vec<Field> = entry.into_iter().collect();
        change::change(random, &mut copy);
        fields.extend(copy);
    }
    fields
}
