//! Document 02, [8]: the text of each operator, the longest text, and what is read back.

use cases::cost::{any_size, tame};
use cases::made::{book, name_all, small, tree};
use cases::random::Random;
use second::answer::{Answer, Number};
use second::book::{Book, LONGEST};
use second::import::import;
use second::judge::judge;
use second::write::{export, text};

/// The longest text.
const LONGEST_TEXT: usize = 1_906;

const CELL: [u8; 3] = [3, 1, 2];
const LIST: [u8; 3] = [4, 2, 0];

/// Nodes over two variables, and their text.
type Written = (&'static [[u8; 3]], &'static str);

const WRITTEN: &[Written] = &[
    (&[[1, 1, 2]], "(and (= v1 v2) sep.emp)"),
    (&[[1, 0, 0]], "(and (= sep.nil sep.nil) sep.emp)"),
    (&[[2, 2, 0]], "(and (distinct v2 sep.nil) sep.emp)"),
    (&[CELL], "(pto v1 v2)"),
    (&[LIST], "(ls v2 sep.nil)"),
    (
        &[CELL, LIST, [5, 0, 1]],
        "(and (pto v1 v2) (ls v2 sep.nil))",
    ),
    (&[CELL, LIST, [6, 1, 0]], "(or (ls v2 sep.nil) (pto v1 v2))"),
    (
        &[CELL, LIST, [7, 0, 1]],
        "(and (pto v1 v2) (not (ls v2 sep.nil)))",
    ),
    (&[LIST, [8, 0, 0]], "(not (ls v2 sep.nil))"),
    (
        &[CELL, LIST, [9, 0, 1]],
        "(sep (pto v1 v2) (ls v2 sep.nil))",
    ),
    (
        &[CELL, LIST, [10, 0, 1]],
        "(not (wand (pto v1 v2) (not (ls v2 sep.nil))))",
    ),
];

#[test]
fn operators() {
    for &(nodes, text) in WRITTEN {
        let book = book([2, 2, 2], nodes);
        let mut out = [0xA5; 60];
        assert_eq!(export(&book, &mut out), Answer::plain(Number::Yes));
        assert_eq!(&out[..text.len()], text.as_bytes());
        assert!(out[text.len()..].iter().all(|&byte| byte == 0xA5));
        let mut short = vec![0xA5; text.len() - 1];
        let refused = export(&book, &mut short);
        assert_eq!(refused, Answer::plain(Number::OutputShort), "{text}");
        assert_eq!(short, vec![0xA5; text.len() - 1]);
    }
}

/// Variables are v1 to v8.
#[test]
fn variables() {
    for x in 1..=8 {
        assert_eq!(
            written(&book([8, 0, 0], &[[4, x, x]])),
            format!("(ls v{x} v{x})")
        );
    }
}

/// 32 inequalities of nil, a septraction for each two formulas, and a negation above them.
#[test]
fn longest() {
    let mut nodes = vec![[2, 0, 0]; 32];
    nodes.extend((0..31).map(|join| [10, 2 * join, 2 * join + 1]));
    nodes.push([8, 62, 0]);
    assert_eq!(written(&book([8, 8, 8], &nodes)).len(), LONGEST_TEXT);
}

/// A text that can't be read back is written all the same.
#[test]
fn too_deep_to_be_read() {
    let mut nodes = vec![[3, 1, 1]];
    nodes.extend((0..16).map(|below| [8, below, 0]));
    let text = written(&book([1, 1, 1], &nodes));
    let answer = import(text.as_bytes(), 1, 1, &mut [0; LONGEST]);
    assert_eq!(answer, Answer::at(Number::BadText, 16 * "(not ".len()));
}

/// Every small book that names its variables holds, read back, on the same models.
#[test]
fn small_books() {
    for (v, n) in [(0, 2), (1, 1), (1, 2), (2, 1)] {
        for nodes in small(v) {
            let book = book([v, n, 1], &nodes);
            if let Some(back) = read_back(&book) {
                every_model(v, n, |model| assert!(back.agrees(&book, model), "{book:?}"));
            }
        }
    }
}

/// Random books on random models, most of them read back.
#[test]
fn random_books() {
    let mut random = Random::new(0x8ACC);
    let mut read = 0;
    for round in 0..4_000 {
        let [most, n, p] = [(); 3].map(|()| random.up_to(3));
        let mut nodes = tree(
            &mut random,
            most,
            1 + round % 12,
            &[1, 2, 3, 3, 4, 4, 5, 6, 7, 8, 9, 9, 10],
        );
        let v = name_all(&mut random, &mut nodes, most);
        // Each equation read back is an operator 9 more.
        tame(&mut nodes, n, any_size(n), 1_000);
        let book = book([v, n, p], &nodes);
        let Some(back) = read_back(&book) else {
            continue;
        };
        read += 1;
        for _ in 0..20 {
            let stack = (0..v).map(|_| random.up_to(n));
            let mut model: Vec<u8> = stack.collect();
            model.extend((0..n).map(|_| random.up_to(n + 1).wrapping_sub(1)));
            assert!(back.agrees(&book, &model), "{book:?} on {model:?}");
        }
    }
    assert!(read > 3_000, "{read}");
}

fn written(book: &[u8]) -> String {
    let book = Book::accept(book).expect("a book");
    String::from_utf8(text(&book)).expect("a text")
}

/// A book that was written and read again.
struct Back {
    book: Vec<u8>,
    /// The variables of the book that was written, in the order of its text.
    order: Vec<usize>,
}

/// None where a variable is not named, or where the text is too deep or has too many nodes.
fn read_back(book: &[u8]) -> Option<Back> {
    let text = written(book);
    let accepted = Book::accept(book).expect("a book");
    let mut order: Vec<usize> = Vec::new();
    for name in text.split('v').skip(1) {
        let digit = name.chars().next().and_then(|digit| digit.to_digit(10));
        let variable = digit.expect("a name has a digit") as usize;
        if !order.contains(&variable) {
            order.push(variable);
        }
    }
    let mut out = [0; LONGEST];
    let [n, p] = [accepted.bounds.n, accepted.bounds.p].map(|bound| bound as u64);
    let answer = import(text.as_bytes(), n, p, &mut out);
    assert!(
        matches!(answer.number, 0 | 26 | 27),
        "{text} gives {answer:?}"
    );
    let length = 14 + usize::from(out[9]);
    let readable = answer.number == 0 && order.len() == accepted.bounds.v;
    readable.then(|| Back {
        book: out[..length].to_vec(),
        order,
    })
}

impl Back {
    /// Whether the model, its variables matched by name, gets the same answer.
    fn agrees(&self, book: &[u8], model: &[u8]) -> bool {
        let (_, cells) = model.split_at(self.order.len());
        let stack = self.order.iter().map(|variable| model[variable - 1]);
        let matched: Vec<u8> = stack.chain(cells.iter().copied()).collect();
        judge(&self.book, &matched) == judge(book, model)
    }
}

fn every_model(v: u8, n: u8, mut call: impl FnMut(&[u8])) {
    let bases: Vec<u8> = (0..v).map(|_| n + 1).chain((0..n).map(|_| n + 2)).collect();
    let count: usize = bases.iter().map(|&base| usize::from(base)).product();
    for mut number in 0..count {
        let mut digit = |base: u8| {
            let digit = number % usize::from(base);
            number /= usize::from(base);
            digit as u8
        };
        let mut model: Vec<u8> = bases.iter().map(|&base| digit(base)).collect();
        for cell in &mut model[usize::from(v)..] {
            *cell = cell.wrapping_sub(1);
        }
        call(&model);
    }
}
