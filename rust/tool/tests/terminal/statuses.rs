//! What each command prints for each answer, and its exit status.

use crate::run::{run, run_on, sample, P1, STRAY};

#[test]
fn found_none_and_spent() {
    let found = run(&["search", &sample("two_queues_share_a_cell")]);
    assert_eq!(found.status, 0);
    assert_eq!(
        found.out,
        "found: x1=2 x2=1 x3=1 ; 1→0, 2→1\nmodel 02 01 01 00 01 ff\ntried 2762 of T = 8000\n"
    );
    let none = run(&["search", &sample("queue_ends_and_loops")]);
    assert_eq!(none.status, 1);
    assert_eq!(
        none.out,
        "none: nothing fits within the bounds v = 1, n = 4, p = 4\ntried 6480 of T = 6480\n"
    );
    let spent = run_on(&P1, &["search", "-", "--budget", "5"]);
    assert_eq!(spent.status, 2);
    assert_eq!(
        spent.out,
        "spent: none of the first 5 candidates fits\ntried 5 of T = 6\n"
    );
    for run in [found, none, spent] {
        assert_eq!(run.err, "");
    }
}

/// A budget of just enough, and of all that 64 bits hold.
#[test]
fn budgets() {
    for budget in ["6", "18446744073709551615"] {
        let found = run_on(&P1, &["search", "--budget", budget, "-"]);
        assert_eq!(found.status, 0, "{budget}");
    }
}

#[test]
fn judged() {
    for (model, status, out) in [
        (&["0101"][..], 0, "fits\n"),
        (&["01 01"], 0, "fits\n"),
        (&["01", "01"], 0, "fits\n"),
        (&["01fF"], 1, "does not fit\n"),
        (&["0102"], 3, ""),
        (&["01"], 3, ""),
        (&[""], 3, ""),
    ] {
        let judged = run_on(&P1, &[&["judge", "-"], model].concat());
        assert_eq!((judged.status, &*judged.out), (status, out), "{model:?}");
        assert_eq!(judged.err.lines().count(), usize::from(status == 3));
    }
}

#[test]
fn a_model_from_a_file() {
    let path = format!("{}/p1.model", env!("CARGO_TARGET_TMPDIR"));
    std::fs::write(&path, [1, 1]).expect("there is room for two bytes");
    let judged = run_on(&P1, &["judge", "-", &format!("@{path}")]);
    assert_eq!(judged.status, 0);
}

#[test]
fn assigned() {
    for (assignment, status, out, err) in [
        ("010101", 0, "satisfied\n", ""),
        ("010100", 1, "not satisfied\n", ""),
        (
            "010102",
            3,
            "",
            "hollyspool: refused with 22: byte 2 of the assignment is out of range\n",
        ),
    ] {
        let assigned = run_on(&P1, &["assign", "-", assignment]);
        let printed = (assigned.status, &*assigned.out, &*assigned.err);
        assert_eq!(printed, (status, out, err));
    }
}

#[test]
fn encoded() {
    let rows = run_on(&P1, &["encode", "-"]);
    assert_eq!(rows.status, 0);
    assert_eq!(
        rows.out,
        "r0 ONE S0 x1\nr1 AT A0 x1 x1\nr2 AND r0 r1\nr3 LONG A0 S0 k=1\nr4 AND r2 r3\n"
    );
    let raw = run_on(&P1, &["encode", "-", "--raw"]);
    assert_eq!(raw.out.as_bytes()[..4], [2, 1, 11, 0]);
    assert_eq!(raw.out.len(), 64);
    // ¬(x ↦ x * x ↦ x)
    let negated = [
        2, 1, 11, 0, 3, 0, 2, 14, 0, 12, 0, 1, 1, 1, 3, 1, 1, 3, 1, 1, 9, 0, 1, 8, 2, 0,
    ];
    let refused = run_on(&negated, &["encode", "-"]);
    assert_eq!((refused.status, &*refused.out), (3, ""));
    assert!(refused.err.starts_with("hollyspool: refused with 19: "));
}

/// What searches refuses a stray variable; what doesn't takes the book.
#[test]
fn stray_variables() {
    for command in ["search", "draw"] {
        let refused = run_on(&STRAY, &[command, "-"]);
        assert_eq!((refused.status, &*refused.out), (3, ""), "{command}");
        assert_eq!(
            refused.err,
            "hollyspool: refused with 25: x1 is declared, but no atom names it\n"
        );
    }
    assert_eq!(run_on(&STRAY, &["judge", "-", "0001000000"]).status, 0);
    assert_eq!(run_on(&STRAY, &["encode", "-"]).status, 0);
    assert_eq!(run_on(&STRAY, &["text", "-"]).status, 0);
    assert_eq!(run_on(&STRAY, &["assign", "-", "000100000001"]).status, 0);
}

#[test]
fn every_command_refuses_no_book() {
    for command in [
        "search", "judge", "encode", "assign", "explain", "draw", "text",
    ] {
        let args: &[&str] = match command {
            "judge" | "assign" => &[command, "-", "00"],
            _ => &[command, "-"],
        };
        for book in [&[][..], &[0; 207], &P1[..16]] {
            assert_eq!(run_on(book, args).status, 3, "{command}");
        }
    }
}
