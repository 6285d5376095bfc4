//! Books as texts and as whole files.

use crate::json::Json;
use crate::machines::fields;
use crate::run::{run, run_on, sample, sample_text, P1, STRAY};

/// A book without bounds of its own: each command reads back what it wrote at these.
const BOUNDS: [(&str, &str); 6] = [
    ("two_queues_share_a_cell", "3"),
    ("tail_hangs_loose", "4"),
    ("queue_loops", "4"),
    ("booking_cut_off", "4"),
    ("queue_ends_and_loops", "4"),
    ("cell_that_points_to_itself", "1"),
];

#[test]
fn printed() {
    let written = run_on(&P1, &["text", "-"]);
    let all = (written.status, &*written.out, &*written.err);
    assert_eq!(all, (0, "(pto v1 v1)\n", ""));
    let written = run(&["text", &sample("tail_hangs_loose")]);
    assert_eq!(
        written.out,
        "(sep (and (distinct v2 sep.nil) sep.emp) \
         (sep (and (distinct v1 v2) sep.emp) (ls v1 v2)))\n"
    );
    assert_eq!(written.err, "");
}

/// What is written, as a text or as a file, answers as the book does.
#[test]
fn read_back() {
    for (name, n) in BOUNDS {
        let book = run(&["search", &sample(name)]);
        for option in [&[][..], &["--file"]] {
            let written = run(&[&["text", &*sample(name)], option].concat());
            let search = ["search", "-", "--text", "--n", n];
            let found = run_on(written.out.as_bytes(), &search);
            assert_eq!(found.status, book.status, "{name}: {}", found.err);
        }
    }
}

/// The file's text is the text.
#[test]
fn whole_files() {
    for (name, _) in BOUNDS {
        let text = run(&["text", &sample(name)]);
        let file = run(&["text", &sample(name), "--file"]);
        let body = run_on(file.out.as_bytes(), &["translate", "-"]);
        let words = |text: &str| text.split_whitespace().collect::<Vec<_>>().join(" ");
        assert_eq!(words(&body.out), text.out.trim_end(), "{name}");
    }
    let file = run(&["text", &sample("booking_cut_off"), "--file"]);
    assert_eq!(
        file.out,
        "; from a book with n = 4, p = 4; its sep and wand are strong, unless asked otherwise\n\
         (set-logic QF_ALL)\n(declare-sort Loc 0)\n(declare-heap (Loc Loc))\n\
         (declare-const v1 Loc)\n(declare-const v2 Loc)\n\
         (assert (sep (and (distinct v1 (as sep.nil Loc)) sep.emp) \
         (sep (and (distinct v1 v2) sep.emp) \
         (sep (ls v1 (as sep.nil Loc)) (pto v2 (as sep.nil Loc))))))\n(check-sat)\n"
    );
    assert_eq!(
        file.err,
        "hollyspool: the file has ls, which Astral knows and cvc5 does not\n"
    );
}

/// A stray variable is not in the text, and the file declares it.
#[test]
fn stray_variables() {
    let written = run_on(&STRAY, &["text", "-"]);
    assert_eq!((written.status, &*written.out), (0, "(pto v2 sep.nil)\n"));
    assert_eq!(
        written.err,
        "hollyspool: no atom names v1, v3, v4: the text is without, and need not hold on the same \
         models\n"
    );
    let file = run_on(&STRAY, &["text", "-", "--file"]);
    assert_eq!(file.err, "");
    let body = run_on(file.out.as_bytes(), &["translate", "-"]);
    assert_eq!(
        body.out,
        "(and (pto v2 sep.nil) (and (= v1 v1) (and (= v3 v3) (= v4 v4))))\n"
    );
}

/// What can't be read back is written all the same, and standard error says so.
#[test]
fn not_read_back() {
    let with = |formula: &[u8]| {
        let mut book = vec![2, 1, 11, 0, 3, 0, 2, 14, 0, formula.len() as u8, 0, 1, 1, 1];
        book.extend(formula);
        book
    };
    let mut deep = vec![3, 1, 1];
    (0..16).for_each(|below| deep.extend([8, below, 0]));
    let mut many = [1, 1, 1].repeat(11);
    (0..10).for_each(|join| many.extend([5, 2 * join, 2 * join + 1]));
    for (formula, number, words) in [
        (deep, 26, "it is more than 16 deep"),
        (many, 27, "it has more than 64 nodes"),
    ] {
        let written = run_on(&with(&formula), &["text", "-"]);
        assert_eq!(written.status, 0);
        let note = format!("hollyspool: the text can't be read back: {words}\n");
        assert_eq!(written.err, note);
        let back = run_on(written.out.as_bytes(), &["explain", "-", "--text"]);
        assert_eq!(back.status, 3);
        assert!(back.out.contains(&format!("({number})")), "{}", back.out);
        let written = fields(&run_on(&with(&formula), &["text", "-", "--json"]));
        assert_eq!(written["read_back"], Json::Number(number));
    }
}

/// A text in its plain form, with its names beside it.
#[test]
fn of_a_text() {
    let written = run(&["text", &sample_text("tail_hangs_loose")]);
    assert_eq!(written.err, "hollyspool: v1 is x, v2 is tail\n");
    let back = run_on(written.out.as_bytes(), &["search", "-", "--text"]);
    let first = run(&["search", &sample_text("tail_hangs_loose")]);
    assert_eq!(back.status, first.status);
}

#[test]
fn for_machines() {
    let text = |words: &str| Json::Text(words.to_owned());
    let written = fields(&run_on(&P1, &["text", "-", "--json"]));
    assert_eq!(written["text"], text("(pto v1 v1)"));
    assert_eq!(written["read_back"], Json::Number(0));
    assert_eq!(written["stray"], Json::List(Vec::new()));
    assert!(!written.contains_key("file"));
    let file = run_on(&P1, &["text", "-", "--file"]).out;
    let written = fields(&run_on(&P1, &["text", "-", "--file", "--json"]));
    assert_eq!(written["file"], text(&file));
}
