//! Texts in place of books.

use crate::run::{run, run_on, sample, sample_text};

/// The sample texts answer as the sample books do, at the books' bounds, under the texts' names.
#[test]
fn samples() {
    for (name, n, found) in [
        ("two_queues_share_a_cell", "3", "x=2 y=1 z=1 ; 1→0, 2→1"),
        ("tail_hangs_loose", "4", "x=2 tail=1 ; 2→1"),
        ("queue_loops", "4", "x=1 y=1 ; 1→1"),
        ("booking_cut_off", "4", "x=2 y=1 ; 1→0, 2→0"),
        ("queue_ends_and_loops", "4", ""),
        ("cell_that_points_to_itself", "1", "x=1 ; 1→1"),
    ] {
        let text = run(&["search", &sample_text(name), "--n", n]);
        let book = run(&["search", &sample(name)]);
        assert_eq!((text.status, &*text.err), (book.status, ""), "{name}");
        let [texts, books] = [&text.out, &book.out].map(|out| out.split_once('\n'));
        let (first, rest) = texts.expect("lines");
        assert_eq!(Some(rest), books.map(|(_, rest)| rest), "{name}");
        if found.is_empty() {
            assert_eq!(text.out, book.out, "{name}");
        } else {
            assert_eq!(first, format!("found: {found}"), "{name}");
        }
    }
}

/// Where the book puts an equation beside a part and the text does so too, the text says less: its
/// equation holds on any heap. So the sample texts have `and` there.
#[test]
fn an_equation_beside_a_part() {
    let beside = b"(sep (distinct y sep.nil) (pto x sep.nil))";
    // y = 2, x = 1 ; 1→0, 2→2: the cell at 2 goes to the part of the inequality.
    let judged = |text: &[u8]| run_on(text, &["judge", "-", "--text", "--n", "2", "02010002"]);
    assert_eq!(judged(beside).status, 0);
    assert_eq!(
        judged(b"(and (distinct y sep.nil) (pto x sep.nil))").status,
        1
    );
}

#[test]
fn every_command() {
    let text = b"(sep (pto head x)\n     (ls x sep.nil))\n";
    for (args, status, out) in [
        (
            &["search", "-", "--n", "2"][..],
            0,
            "found: head=1 x=0 ; 1→0\nmodel 01 00 00 ff\ntried 18 of T = 144\n",
        ),
        (&["judge", "-", "--n", "2", "01020200"], 0, "fits\n"),
        (
            &["judge", "-", "--n", "2", "--p", "0", "01020200"],
            1,
            "does not fit\n",
        ),
        (
            &["encode", "-", "--n", "1", "--p", "0"],
            0,
            "r0 ONE S1 head\nr1 AT A0 head x\nr2 AND r0 r1\nr3 CHAIN A0 S2 x nil k=0\n\
             r4 CHAIN A0 S2 x nil k=1\nr5 OR r3 r4\nr6 AND r2 r5\nr7 SPLIT S0 S1 S2\nr8 AND r6 r7\n\
             r9 APART A0 S1 S2\nr10 AND r8 r9\nr11 LONG A0 S0 k=0\nr12 AND r10 r11\n",
        ),
        (
            &["assign", "-", "--n", "1", "--p", "1", "010000010100"],
            0,
            "satisfied\n",
        ),
        (
            &["explain", "-"],
            0,
            "formula  head ↦ x * ls(x, nil)\nnodes    3\nbounds   v = 2, n = 4, p = 4\n\
             T        32400 candidates\nrows     19\ntext     (sep (pto v1 v2) (ls v2 sep.nil))\n\
             names    head is 1, x is 2\n",
        ),
        (
            &["draw", "-", "--n", "1"],
            0,
            "digraph model {\n  rankdir=LR;\n  label=\"numbers are only names: with others, nil staying \
             put, the model fits as well\";\n  0 [shape=box, label=\"nil\\nx\"];\n  \
             1 [shape=ellipse, style=solid, label=\"1\\nhead\"];\n  1 -> 0;\n}\n",
        ),
        (&["text", "-"], 0, "(sep (pto v1 v2) (ls v2 sep.nil))\n"),
        (
            &["translate", "-"],
            0,
            "(sep (pto head x)\n     (ls x sep.nil))\n",
        ),
    ] {
        let run = run_on(text, &[args, &["--text"]].concat());
        assert_eq!(
            (run.status, &*run.out),
            (status, out),
            "{args:?}: {}",
            run.err
        );
    }
}

/// n is 4 and p is n where nothing else is said.
#[test]
fn reach() {
    let bounds = |args: &[&str]| {
        let run = run_on(b"(ls x y)", &[&["explain", "--text", "-"], args].concat());
        let line = run.out.lines().find(|line| line.starts_with("bounds"));
        line.map(str::to_owned).expect("a line on the bounds")
    };
    assert_eq!(bounds(&[]), "bounds   v = 2, n = 4, p = 4");
    assert_eq!(bounds(&["--n", "8"]), "bounds   v = 2, n = 8, p = 8");
    assert_eq!(bounds(&["--p", "1"]), "bounds   v = 2, n = 4, p = 1");
    assert_eq!(
        bounds(&["--n", "0", "--p", "5"]),
        "bounds   v = 2, n = 0, p = 5"
    );
    let refused = run_on(b"?", &["search", "--text", "-", "--n", "9", "--p", "2"]);
    assert_eq!(refused.status, 3);
    assert_eq!(
        refused.err,
        "hollyspool: refused with 12: n is 9 and p is 2, but each is at most 8\n"
    );
}

/// The encoder refuses an equation under a negation, and says what to write.
#[test]
fn not_encodable() {
    let refused = run_on(b"(not (= x y))", &["encode", "--text", "-"]);
    assert_eq!((refused.status, &*refused.out), (3, ""));
    assert!(
        refused.err.contains("write (distinct x y)"),
        "{}",
        refused.err
    );
    assert_eq!(
        run_on(b"(distinct x y)", &["encode", "--text", "-"]).status,
        0
    );
}
