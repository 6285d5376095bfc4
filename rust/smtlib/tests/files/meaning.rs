//! A body means what its file says: truth under the connectives that a body has not, as the proved
//! judge has it for the parts.

use hollyspool::{judge, Book};

use crate::body;

const N: u8 = 2;

/// The models over x, y and z that fit the assertion, one bit a model. The equations make x, y and z
/// variables 1, 2 and 3 whatever the assertion is.
fn truth(formula: &str) -> Vec<bool> {
    let text = body(&format!("(assert (and (= x x) (= y y) (= z z) {formula}))"));
    let (book, names) = Book::parse(&text, N.into(), N.into()).expect("a body");
    assert_eq!(names, ["x", "y", "z"]);
    models()
        .map(|model| judge(book.bytes(), &model).number == 0)
        .collect()
}

fn models() -> impl Iterator<Item = [u8; 5]> {
    let digit = |number: u32, place: u32, base: u32| (number / base.pow(place) % base) as u8;
    (0..27 * 16).map(move |number: u32| {
        let cell = |place| digit(number, place, 4).wrapping_sub(1);
        let at = |place| digit(number / 16, place, 3);
        [at(0), at(1), at(2), cell(0), cell(1)]
    })
}

const PARTS: [&str; 6] = [
    "emp",
    "(pto x y)",
    "(ls x nil)",
    "(= x y)",
    "(distinct y z)",
    "(sep (pto x y) (pto y z))",
];

#[test]
fn connectives() {
    for a in PARTS {
        for b in PARTS {
            let [left, right] = [a, b].map(truth);
            let pairs = || left.iter().zip(&right);
            let of = |word: &str| truth(&format!("({word} {a} {b})"));
            assert_eq!(of("=>"), pairs().map(|(a, b)| !a || *b).collect::<Vec<_>>());
            assert_eq!(of("xor"), pairs().map(|(a, b)| a != b).collect::<Vec<_>>());
            assert_eq!(
                of("and true"),
                pairs().map(|(a, b)| *a && *b).collect::<Vec<_>>()
            );
            assert_eq!(
                of("or false"),
                pairs().map(|(a, b)| *a || *b).collect::<Vec<_>>()
            );
            let chosen = truth(&format!("(ite (pto x x) {a} {b})"));
            let condition = truth("(pto x x)");
            let expected = pairs()
                .zip(&condition)
                .map(|((a, b), c)| if *c { *a } else { *b });
            assert_eq!(chosen, expected.collect::<Vec<_>>());
            let added = truth(&format!("(septraction {a} {b})"));
            assert_eq!(added, truth(&format!("(not (wand {a} (not {b})))")));
        }
    }
}

/// Three parts, nested either way: `sep` of several has one meaning.
#[test]
fn several_parts() {
    for a in PARTS {
        for b in PARTS {
            for c in ["(not emp)", "(pto z nil)", "true"] {
                let right = truth(&format!("(sep {a} {b} {c})"));
                assert_eq!(right, truth(&format!("(sep (sep {a} {b}) {c})")));
            }
        }
    }
}

#[test]
fn relations_of_several() {
    let [xy, yz, xz] = ["(= x y)", "(= y z)", "(= x z)"].map(truth);
    let equal: Vec<bool> = xy.iter().zip(&yz).map(|(a, b)| *a && *b).collect();
    assert_eq!(truth("(= x y z)"), equal);
    let distinct = xy
        .iter()
        .zip(&yz)
        .zip(&xz)
        .map(|((a, b), c)| !a && !b && !c);
    assert_eq!(truth("(distinct x y z)"), distinct.collect::<Vec<_>>());
    assert!(truth("true").iter().all(|&holds| holds));
    assert!(!truth("false").iter().any(|&holds| holds));
}
