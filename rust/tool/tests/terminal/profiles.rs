//! `--profile`: which separation is meant.

use crate::run::{run_on, Run, P1};

/// P7's book: two parts that both have cells, bounds 2 3 3.
const P7: [u8; 29] = [
    2, 1, 11, 0, 3, 0, 2, 14, 0, 15, 0, 2, 3, 3, 1, 0, 0, 8, 0, 0, 1, 0, 0, 8, 2, 0, 9, 1, 3,
];

/// A list of over one link, in which no two parts have cells.
const WHOLE: &str = "(and (and (ls x sep.nil) (not (pto x sep.nil))) \
                     (and (not sep.emp) (not (sep (not sep.emp) (not sep.emp)))))";

/// Without an option, and with each of its values.
const OPTIONS: [&[&str]; 3] = [&[], &["--profile", "strong"], &["--profile", "ordinary"]];

fn each(input: &[u8], args: &[&str]) -> [Run; 3] {
    OPTIONS.map(|option| run_on(input, &[args, option].concat()))
}

fn outputs(runs: &[Run; 3]) -> [(i32, &str); 3] {
    [0, 1, 2].map(|at| (runs[at].status, &*runs[at].out))
}

#[test]
fn judged() {
    let runs = each(&P7, &["judge", "-", "01020303ff"]);
    let no = (1, "does not fit\n");
    assert_eq!(outputs(&runs), [no, no, (0, "fits\n")]);
    // The text of a list beside anything, on x = 1 ; 1→3, 2→3, 3→0.
    let text = b"(sep (ls x sep.nil) (= x x))";
    let runs = each(text, &["judge", "-", "--text", "--n", "3", "01030300"]);
    assert_eq!(outputs(&runs), [no, no, (0, "fits\n")]);
}

#[test]
fn assigned() {
    let runs = each(&P7, &["assign", "-", "0102030300030102"]);
    let no = (1, "not satisfied\n");
    assert_eq!(outputs(&runs), [no, no, (0, "satisfied\n")]);
}

#[test]
fn searched() {
    let runs = each(WHOLE.as_bytes(), &["search", "-", "--text", "--n", "2"]);
    let found = (
        0,
        "found: x=1 ; 1→2, 2→0\nmodel 01 02 00\ntried 24 of T = 48\n",
    );
    let none = "none: nothing fits within the bounds v = 1, n = 2, p = 2, separation being \
                ordinary\ntried 48 of T = 48\n";
    assert_eq!(outputs(&runs), [found, found, (1, none)]);
    let [plain, strong, ordinary] = each(WHOLE.as_bytes(), &["draw", "-", "--text", "--n", "2"]);
    assert_eq!((plain.status, &plain.out), (0, &strong.out));
    assert_eq!((ordinary.status, &*ordinary.out), (1, ""));
    assert!(ordinary.err.contains("separation being ordinary"));
}

#[test]
fn encoded() {
    let [plain, strong, ordinary] = each(&P7, &["encode", "-"]);
    assert_eq!(plain.out, strong.out);
    assert!(strong.out.ends_with(
        "r10 AND r8 r9\nr11 APART A0 S1 S2\nr12 AND r10 r11\nr13 LONG A0 S0 k=3\nr14 AND r12 r13\n"
    ));
    assert!(ordinary
        .out
        .ends_with("r10 AND r8 r9\nr11 LONG A0 S0 k=3\nr12 AND r10 r11\n"));
    let lengths = each(&P7, &["encode", "-", "--json"]).map(|run| {
        let (_, rows) = run.out.split_once("\"rows\":").expect("a number of rows");
        rows[..2].to_owned()
    });
    assert_eq!(lengths, ["15", "15", "13"]);
    let explained = each(&P7, &["explain", "-"]);
    let rows = ["15", "15", "13"].map(|rows| format!("rows     {rows}\n"));
    for (run, rows) in explained.iter().zip(rows) {
        assert!(run.out.contains(&rows), "{}", run.out);
    }
}

/// Where nothing is separated the profiles agree, and refusals are the same.
#[test]
fn alike() {
    for args in [
        &["search", "-"][..],
        &["judge", "-", "0101"],
        &["judge", "-", "01"],
        &["encode", "-"],
        &["assign", "-", "010101"],
        &["assign", "-", "010102"],
        &["explain", "-", "--json"],
        &["draw", "-"],
    ] {
        for book in [&P1[..], &P1[..16]] {
            let [plain, strong, ordinary] = each(book, args);
            let all = |run: Run| (run.status, run.out, run.err);
            let (plain, strong) = (all(plain), all(strong));
            assert_eq!(plain, strong, "{args:?}");
            assert_eq!(strong, all(ordinary), "{args:?}");
        }
    }
}
