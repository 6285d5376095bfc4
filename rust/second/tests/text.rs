//! Document 02, [2]: which texts are refused, where, and which book the others make.

use second::answer::Answer;
use second::book::read;
use second::import::import;

/// A text and its number and place, at n = p = 2.
type Refused = (&'static str, u64, u64);

const REFUSED: &[Refused] = &[
    // A text that stops early: the length.
    ("", 26, 0),
    (" \n", 26, 2),
    ("(", 26, 1),
    ("(an", 26, 3),
    ("sep.em", 26, 6),
    ("(pto x y", 26, 8),
    ("(pto x y ", 26, 9),
    // One formula, and nothing after it.
    ("sep.emp sep.emp", 26, 8),
    ("sep.emp)", 26, 7),
    ("sep.emp(", 26, 7),
    ("x", 26, 0),
    ("sep.nil", 26, 4),
    // Blanks are spaces and line feeds.
    ("\tsep.emp", 26, 0),
    ("sep.emp\r\n", 26, 7),
    ("(pto\tx y)", 26, 4),
    ("(pto x\u{a0}y)", 26, 6),
    // A list begins with its word, at the edge of which a blank or a bracket stands.
    ("()", 26, 1),
    ("(x y)", 26, 1),
    ("(lsx y sep.nil)", 26, 3),
    ("(an (pto x y))", 26, 3),
    ("(sep.emp)", 26, 4),
    ("((pto x y))", 26, 1),
    // As many operands as the word asks for.
    ("(not)", 26, 4),
    ("(not sep.emp sep.emp)", 26, 13),
    ("(and sep.emp)", 26, 12),
    ("(pto x)", 26, 6),
    ("(pto x y z)", 26, 9),
    ("(and x y)", 26, 5),
    ("(pto sep.emp x)", 26, 9),
    ("(pto (not sep.emp) x)", 26, 5),
    // Names.
    ("(pto X y)", 26, 5),
    ("(pto 1x y)", 26, 5),
    ("(pto x_ y)", 26, 6),
    ("(pto abcdefghi y)", 26, 13),
    ("(pto distinct x)", 26, 12),
    ("(pto distinctx x)", 26, 12),
    ("(pto and x)", 26, 8),
    ("(pto sep x)", 26, 8),
    ("(pto sep. x)", 26, 9),
    ("(pto sep.nilx y)", 26, 12),
    ("(pto x sep)", 26, 10),
];

#[test]
fn refused() {
    for &(text, number, place) in REFUSED {
        assert_eq!(answered(text), [number, place, 0], "{text:?}");
    }
}

/// A text, how many names it has, and its nodes.
type Accepted = (&'static str, u8, &'static [[u8; 3]]);

const ACCEPTED: &[Accepted] = &[
    ("sep.emp", 0, &[[1, 0, 0]]),
    ("\n(pto  x\ny )", 2, &[[3, 1, 2]]),
    ("(ls sep.nil a2345678)", 1, &[[4, 0, 1]]),
    ("(pto ands sepx)", 2, &[[3, 1, 2]]),
    (
        "(and(pto y x)sep.emp)",
        2,
        &[[3, 1, 2], [1, 0, 0], [5, 0, 1]],
    ),
    ("(= x x)", 1, &[[1, 1, 1], [2, 0, 0], [8, 1, 0], [9, 0, 2]]),
    (
        "(distinct x sep.nil)",
        1,
        &[[2, 1, 0], [2, 0, 0], [8, 1, 0], [9, 0, 2]],
    ),
    ("(not(ls x y))", 2, &[[4, 1, 2], [8, 0, 0]]),
    (
        "(wand (pto y x) (ls x y))",
        2,
        &[[3, 1, 2], [4, 2, 1], [8, 1, 0], [10, 0, 2], [8, 3, 0]],
    ),
    (
        "(or (sep (pto x y) (pto y z)) (not sep.emp))",
        3,
        &[
            [3, 1, 2],
            [3, 2, 3],
            [9, 0, 1],
            [1, 0, 0],
            [8, 3, 0],
            [6, 2, 4],
        ],
    ),
];

/// The book, at n = p = 2.
#[test]
fn books() {
    for &(text, v, nodes) in ACCEPTED {
        let expected = cases::made::book([v, 2, 2], nodes);
        let mut out = vec![0xA5; expected.len() + 1];
        assert_eq!(import(text.as_bytes(), 2, 2, &mut out).number, 0, "{text}");
        assert_eq!(out[..expected.len()], expected, "{text}");
        assert_eq!(out[expected.len()], 0xA5);
        assert_eq!(read(&expected).number, 0);
        let mut short = vec![0xA5; expected.len() - 1];
        assert_eq!(import(text.as_bytes(), 2, 2, &mut short).number, 20);
        assert_eq!(short, vec![0xA5; expected.len() - 1]);
    }
}

/// A list may stand sixteen deep.
#[test]
fn depth() {
    let nested = |depth: usize| format!("{}sep.emp{}", "(not ".repeat(depth), ")".repeat(depth));
    assert_eq!(answered(&nested(16)), [0, 0, 0]);
    assert_eq!(answered(&nested(17)), [26, 80, 0]);
    assert_eq!(answered(&nested(17)[..81]), [26, 80, 0]);
    assert_eq!(answered(&nested(17)[..80]), [26, 80, 0]);
}

/// The item that passes 64 nodes, where it is finished before 26's place, and nowhere else.
#[test]
fn nodes() {
    // 64 nodes, and the second item of eight lists is still to come.
    let full = format!("{}(and sep.emp ", "(and (and (= x x) (= x x)) ".repeat(7));
    let at = full.len() as u64;
    for (rest, number, place) in [
        ("", 26, at),
        ("sep.em", 26, at + 6),
        ("sep.emx", 26, at + 6),
        // `sep.emp` is finished at its last byte, and the byte after it may be a bad one.
        ("sep.emp", 27, at + 6),
        ("sep.empx", 27, at + 6),
        ("(not sep.emp)", 27, at + 11),
        // A list is finished at its closing bracket, with all the nodes it adds.
        ("(= x x)", 27, at + 6),
        ("(= x x", 26, at + 6),
        ("(= x x x)", 26, at + 7),
    ] {
        assert_eq!(
            answered(&format!("{full}{rest}")),
            [number, place, 0],
            "{rest}"
        );
    }
}

/// A ninth name, finished before 26's place.
#[test]
fn names() {
    let eight = "(and (pto a b) (and (pto c d) (and (pto e f) (and (pto g h) (pto ";
    let at = eight.len() as u64;
    for (rest, number, place) in [
        ("i a)))))", 28, at),
        ("i ", 28, at),
        ("i  )", 28, at),
        ("i", 26, at + 1),
        ("i)", 26, at + 1),
        ("i. a", 26, at + 1),
        ("a i)", 28, at + 2),
        ("a i", 26, at + 3),
        ("a i(", 26, at + 3),
        ("a sep.nil)))))", 0, 0),
        ("a h)))))", 0, 0),
    ] {
        assert_eq!(
            answered(&format!("{eight}{rest}")),
            [number, place, 0],
            "{rest}"
        );
    }
}

/// Bounds are judged before the text, and the output after it.
#[test]
fn order() {
    let mut out = [0xA5; 16];
    for (n, p) in [(9, 0), (0, 9), (u64::MAX, 0), (1 << 32, 1 << 8)] {
        assert_eq!(import(b"?", n, p, &mut out).number, 12);
    }
    assert_eq!(import(b"?", 8, 8, &mut out).number, 26);
    assert_eq!(import(b"sep.emp", 8, 8, &mut out).number, 20);
    assert_eq!(out, [0xA5; 16]);
}

fn answered(text: &str) -> [u64; 3] {
    let Answer {
        number,
        place,
        tried,
    } = import(text.as_bytes(), 2, 2, &mut [0; 206]);
    [number, place, tried]
}
