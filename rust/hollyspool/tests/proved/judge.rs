//! The judge: all small formulas on all their models, and random ones.

use cases::cost::{sizes, tame};
use cases::made::{book, small, tree};
use cases::random::Random;
use second::book::Bounds;
use second::candidate::count;
use second::judge::judge_in;
use second::model::{Model, UNALLOCATED};

use crate::compare::{proved, MOST, PROFILES};

/// Negations and septractions tell strong disjointness from plain, and so they come often.
const OPERATORS: [u8; 16] = [1, 1, 2, 3, 3, 4, 5, 6, 7, 8, 8, 8, 9, 9, 10, 10];

#[test]
fn every_model_of_every_small_formula() {
    for bounds in small_bounds() {
        let models = models(bounds);
        for nodes in small(bounds[0]) {
            let book = book(bounds, &nodes);
            for model in &models {
                same_judging(&book, model);
            }
        }
    }
}

#[test]
fn random_formulas() {
    let mut random = Random::new(0x1DEA);
    for round in 0..20_000 {
        let bounds = [(); 3].map(|()| random.up_to(MOST));
        let most = random.one_of(&[1_000, 20_000, 1_000_000]);
        let (book, models) = crowded_models::<8>(&mut random, bounds, 1 + round % 64, most);
        for model in models {
            same_judging(&book, &model);
        }
    }
}

/// Formulas so small that a single pair of parts decides them.
#[test]
fn random_formulas_of_few_nodes() {
    let mut random = Random::new(0xFE3);
    for round in 0..60_000 {
        let bounds = [random.up_to(3), random.up_to(MOST), random.up_to(MOST)];
        let (book, models) = crowded_models::<8>(&mut random, bounds, 3 + round % 8, 100_000);
        for model in models {
            same_judging(&book, &model);
        }
    }
}

/// A random book of so many nodes, and crowded models on which judging it takes at most about so many visits.
pub fn crowded_models<const COUNT: usize>(
    random: &mut Random,
    bounds: [u8; 3],
    nodes: usize,
    most: u64,
) -> (Vec<u8>, [Vec<u8>; COUNT]) {
    let models = [(); COUNT].map(|()| crowded(random, bounds));
    let mut nodes = tree(random, bounds[0], nodes, &OPERATORS);
    tame(
        &mut nodes,
        bounds[1],
        sizes(bounds[0].into(), &models),
        most,
    );
    (book(bounds, &nodes), models)
}

#[test]
fn refused_models() {
    let mut random = Random::new(0x0DD);
    for _ in 0..50_000 {
        let bounds = [(); 3].map(|()| random.up_to(MOST));
        let book = book(bounds, &[[1, 0, 0]]);
        let mut model = crowded(&mut random, bounds);
        let length = random.below(model.len() + 3);
        match random.below(4) {
            0 => model.resize(length, 0),
            _ => model.iter_mut().for_each(|byte| {
                if random.below(6) == 0 {
                    let n = bounds[1];
                    *byte = random.one_of(&[0, n, n + 1, MOST, MOST + 1, 128, 254, 255]);
                }
            }),
        }
        same_judging(&book, &model);
    }
    for length in [0, 1, 255, 256, 65_535] {
        same_judging(&book([0, 0, 0], &[[1, 0, 0]]), &vec![0; length]);
    }
}

fn same_judging(book: &[u8], model: &[u8]) {
    for (profile, second) in PROFILES {
        let answer = proved(hollyspool::judge_in(profile, book, model));
        let expected = judge_in(second, book, model);
        assert_eq!(answer, expected, "{model:?} for {book:?} in {profile:?}");
    }
}

/// All v, n, p up to 2.
fn small_bounds() -> impl Iterator<Item = [u8; 3]> {
    (0..27).map(|number| [number / 9, number / 3 % 3, number % 3])
}

/// The bytes of every model, in the order of candidates.
pub fn models([v, n, p]: [u8; 3]) -> Vec<Vec<u8>> {
    let [v, n, p] = [v, n, p].map(usize::from);
    let bounds = Bounds { v, n, p };
    let model = |number| {
        let mut bytes = vec![0; v + n];
        Model::candidate(bounds, number).write(bounds, &mut bytes);
        bytes
    };
    (0..count(bounds)).map(model).collect()
}

/// A model with few unallocated locations, whose cells share two values and whose variables two
/// locations, so that parts often meet, and at unnamed locations.
fn crowded(random: &mut Random, [v, n, _]: [u8; 3]) -> Vec<u8> {
    let shared = [random.up_to(n), random.up_to(n)];
    let named = [random.up_to(n), random.up_to(n)];
    let mut model = Vec::new();
    for _ in 0..v {
        model.push(match random.below(4) {
            0 => random.up_to(n),
            _ => random.one_of(&named),
        });
    }
    for _ in 0..n {
        model.push(match random.below(6) {
            0 => UNALLOCATED,
            1 | 2 => random.up_to(n),
            _ => random.one_of(&shared),
        });
    }
    model
}
