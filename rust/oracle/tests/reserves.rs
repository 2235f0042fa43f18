// SPDX-License-Identifier: Apache-2.0 OR MIT
//! The state field that covers each payout by itself.

use model_file::decode;
use oracle::{answers, payout_reserves, Answer, Kind, Model};

fn reserves(file: &[u8]) -> Vec<Vec<Option<usize>>> {
    let contract = decode(file).expect("the file passes");
    let model = Model::build(&contract);
    let of = |entry| payout_reserves(&model, entry);
    model.entries.iter().copied().map(of).collect()
}

#[test]
fn the_worked_entries_have_theirs() {
    let k3 = include_bytes!("../../../examples/K03.model");
    let k10 = include_bytes!("../../../examples/K10.model");
    let k11 = include_bytes!("../../../examples/K11.model");
    let k12 = include_bytes!("../../../examples/K12.model");
    assert_eq!(reserves(k3), [[None]]);
    assert_eq!(reserves(k10), [[None]]);
    assert_eq!(reserves(k11), [vec![], vec![Some(0)]]);
    assert_eq!(reserves(k12), [vec![], vec![None]]);
}

/// Where an entry is accepted, each payout has one, and where a reserve covers
/// it, that is it.
#[test]
fn a_cover_of_kind_5_is_the_payouts_own() {
    let mut seen = 0;
    for seed in 0..3_000 {
        let file = generator::file(seed);
        let Ok(answers) = answers(&file) else {
            continue;
        };
        for (answer, found) in answers.into_iter().zip(reserves(&file)) {
            let Answer::Accepted { covers, .. } = answer else {
                continue;
            };
            assert_eq!(found.len(), covers.len(), "seed {seed}");
            for (cover, found) in covers.into_iter().zip(found) {
                if cover.kind == Kind::Reserve {
                    assert_eq!(found, Some(cover.index), "seed {seed}");
                    seen += 1;
                }
            }
        }
    }
    assert!(seen > 100, "{seen}");
}
