//! `--json`: one object on standard output, whatever the answer is.

use std::collections::BTreeMap;

use crate::json::{parse, Json};
use crate::run::{run, run_on, sample, Run, P1, STRAY};

pub fn fields(run: &Run) -> BTreeMap<String, Json> {
    assert_eq!(run.err, "");
    match parse(&run.out) {
        Json::Object(fields) => fields,
        other => panic!("no object: {other:?}"),
    }
}

fn text(words: &str) -> Json {
    Json::Text(words.to_owned())
}

#[test]
fn a_found_model() {
    let run = run(&["search", &sample("two_queues_share_a_cell"), "--json"]);
    let fields = fields(&run);
    assert_eq!(run.status, 0);
    let numbers = |numbers: &[u64]| numbers.iter().map(|&n| Json::Number(n)).collect::<Vec<_>>();
    let heap = [numbers(&[0, 1]), vec![Json::Null]].concat();
    for (name, value) in [
        ("number", Json::Number(0)),
        ("meaning", text("found")),
        ("place", Json::Number(0)),
        ("tried", Json::Number(2762)),
        ("total", Json::Number(8000)),
        ("model", text("0201010001ff")),
        ("stack", Json::List(numbers(&[2, 1, 1]))),
        ("heap", Json::List(heap)),
    ] {
        assert_eq!(fields[name], value, "{name}");
    }
    assert_eq!(fields.len(), 8);
}

#[test]
fn every_answer_is_an_object() {
    for (args, status, number, meaning) in [
        (&["search", "-"][..], 0, 0, "found"),
        (&["search", "-", "--budget", "0"], 2, 2, "spent"),
        (&["judge", "-", "0101"], 0, 0, "fits"),
        (&["judge", "-", "0100"], 1, 1, "does not fit"),
        (
            &["judge", "-", ""],
            3,
            17,
            "the model is not v + n bytes long",
        ),
        (&["encode", "-"], 0, 0, "written"),
        (&["assign", "-", "010101"], 0, 0, "satisfied"),
        (&["assign", "-", "000000"], 1, 1, "not satisfied"),
        (&["explain", "-"], 0, 0, "accepted"),
        (&["text", "-"], 0, 0, "written"),
        (&["draw", "-"], 0, 0, "found"),
        (&["draw", "-", "--budget", "1"], 2, 2, "spent"),
    ] {
        let run = run_on(&P1, &[args, &["--json"]].concat());
        let fields = fields(&run);
        assert_eq!(run.status, status, "{args:?}");
        assert_eq!(fields["number"], Json::Number(number), "{args:?}");
        assert_eq!(fields["meaning"], text(meaning), "{args:?}");
    }
}

#[test]
fn a_refused_book() {
    let mut book = P1;
    book[16] = 9;
    for command in ["search", "encode", "explain", "draw", "text"] {
        let run = run_on(&book, &[command, "-", "--json"]);
        assert_eq!(run.status, 3, "{command}");
        let fields = fields(&run);
        assert_eq!(fields["number"], Json::Number(15), "{command}");
        let byte = (command == "explain").then_some(Json::Number(16));
        assert_eq!(fields.get("byte").cloned(), byte, "{command}");
    }
}

/// The field that is wrong: its byte, what stands there, and what should.
#[test]
fn a_wrong_field_of_the_contents() {
    for (at, value, [number, entry, byte, is]) in [
        (0, 3, [11, 0, 0, 3]),
        (1, 4, [23, 0, 1, 4]),
        (3, 1, [24, 0, 2, 267]),
        (5, 2, [24, 0, 4, 515]),
        (6, 1, [23, 1, 6, 1]),
        (7, 16, [24, 1, 7, 16]),
        (10, 1, [24, 1, 9, 259]),
    ] {
        let mut book = P1;
        book[at] = value;
        let fields = fields(&run_on(&book, &["explain", "-", "--json"]));
        let names = ["number", "place", "byte", "is"];
        for (name, number) in names.into_iter().zip([number, entry, byte, is]) {
            assert_eq!(fields[name], Json::Number(number), "{at}: {name}");
        }
        let in_words = run_on(&book, &["explain", "-"]).out;
        let Json::Text(expected) = &fields["expected"] else {
            panic!("no words: {fields:?}");
        };
        assert!(in_words.ends_with(&format!("; expected {expected}\n")));
    }
}

#[test]
fn a_field_that_is_not_there() {
    let fields = fields(&run_on(&P1[..10], &["explain", "-", "--json"]));
    assert_eq!(fields["byte"], Json::Number(10));
    assert!(!fields.contains_key("is"));
}

#[test]
fn what_stands_in_a_book() {
    let run = run_on(&P1, &["explain", "-", "--json"]);
    let fields = fields(&run);
    assert_eq!(fields["formula"], text("x1 ↦ x1"));
    assert_eq!(fields["text"], text("(pto v1 v1)"));
    for (name, number) in [("v", 1), ("n", 1), ("p", 1), ("total", 6), ("rows", 5)] {
        assert_eq!(fields[name], Json::Number(number), "{name}");
    }
    assert_eq!(fields["stray"], Json::List(Vec::new()));
}

#[test]
fn stray_variables() {
    let explained = fields(&run_on(&STRAY, &["explain", "-", "--json"]));
    assert_eq!(explained["number"], Json::Number(0));
    assert_eq!(
        explained["stray"],
        Json::List([1, 3, 4].map(Json::Number).to_vec())
    );
    for command in ["search", "draw"] {
        let run = run_on(&STRAY, &[command, "-", "--json"]);
        assert_eq!(run.status, 3, "{command}");
        let fields = fields(&run);
        for (name, number) in [("number", 25), ("place", 1), ("tried", 0)] {
            assert_eq!(fields[name], Json::Number(number), "{command}: {name}");
        }
        let words = "x1 is declared, but no atom names it";
        assert_eq!(fields["meaning"], text(words), "{command}");
    }
}

#[test]
fn a_picture_in_json_is_the_picture() {
    let picture = run_on(&P1, &["draw", "-"]).out;
    assert!(picture.starts_with("digraph "));
    let run = run_on(&P1, &["draw", "-", "--json"]);
    assert_eq!(fields(&run)["dot"], text(&picture));
}
