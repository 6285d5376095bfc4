//! Document 02, [14]: renumbering the locations from 1 to n never changes whether a model fits.

use std::collections::BTreeMap;

use cases::made::{book, small};
use cases::random::Random;
use cases::renumber::{renumbered, renumbering, renumberings};
use hollyspool::{judge_in, Profile};

use crate::compare::MOST;
use crate::judge::{crowded_models, models};

/// Every renumbering of every model of every small formula.
#[test]
fn small_formulas() {
    for [v, n] in [[0, 2], [0, 3], [1, 2], [1, 3], [2, 2]] {
        let bounds = [v, n, n - 1];
        let models = models(bounds);
        let renumberings = partners(v.into(), n, &models);
        for nodes in small(v) {
            let book = book(bounds, &nodes);
            for profile in Profile::ALL {
                let judged = |model| judge_in(profile, &book, model).number;
                let judged: Vec<u64> = models.iter().map(|model| judged(model)).collect();
                for partners in &renumberings {
                    let renumbered = partners.iter().map(|&at| judged[at]);
                    assert!(renumbered.eq(judged.iter().copied()), "{book:?}");
                }
            }
        }
    }
}

/// For each renumbering, where each model's renumbered one stands among the models.
fn partners(v: usize, n: u8, models: &[Vec<u8>]) -> Vec<Vec<usize>> {
    let places: BTreeMap<&[u8], usize> = models.iter().map(|model| &model[..]).zip(0..).collect();
    let partners = |to: Vec<u8>| {
        let of = |model: &Vec<u8>| places[&*renumbered(v, model, &to)];
        models.iter().map(of).collect()
    };
    renumberings(n).into_iter().map(partners).collect()
}

#[test]
fn random_formulas() {
    let mut random = Random::new(0x14E);
    let mut fits = [0; 2];
    for round in 0..20_000 {
        let bounds = [random.up_to(4), random.up_to(MOST), random.up_to(MOST)];
        let (book, models) = crowded_models::<4>(&mut random, bounds, 1 + round % 16, 100_000);
        for model in models {
            let to = renumbering(&mut random, bounds[1]);
            let other = renumbered(bounds[0].into(), &model, &to);
            for profile in Profile::ALL {
                let [one, another] = [&model, &other].map(|model| judge_in(profile, &book, model));
                assert_eq!(
                    one, another,
                    "{model:?}, {other:?} for {book:?} in {profile:?}"
                );
                fits[one.number as usize] += usize::from(model != other);
            }
        }
    }
    assert!(fits.iter().all(|&count| count > 10_000), "{fits:?}");
}
