//! Bad arguments get one line on standard error; `--help` works everywhere.

use crate::run::{run, sample};

const COMMANDS: [&str; 8] = [
    "search",
    "judge",
    "encode",
    "assign",
    "explain",
    "draw",
    "text",
    "translate",
];

#[test]
fn bad_arguments() {
    let book = &*sample("queue_loops");
    for (args, line) in [
        (&[][..], "no command is given"),
        (&["serach", book], "there is no command serach"),
        (&["search"], "search needs a FILE"),
        (&["search", book, book], "search takes one FILE, and no"),
        (&["search", book, "--budget"], "--budget needs a number"),
        (
            &["search", book, "--budget", "-1"],
            "--budget needs a number from 0",
        ),
        (
            &["search", book, "--budget", "18446744073709551616"],
            "--budget needs a number from 0",
        ),
        (&["search", book, "--n", "3"], "--n and --p are for a text"),
        (&["search", book, "--p", "3"], "--n and --p are for a text"),
        (&["search", book, "--text", "--n"], "--n needs a number"),
        (&["search", "a.smt2", "--p", "x"], "--p needs a number"),
        (&["search", "no.smt2"], "can't read no.smt2"),
        (&["translate", "no.smt2"], "can't read no.smt2"),
        (
            &["translate", book, "--n", "1"],
            "translate has no option --n",
        ),
        (&["translate"], "translate needs a FILE"),
        (&["search", book, "--raw"], "search has no option --raw"),
        (
            &["search", book, "--profile"],
            "--profile needs strong or ordinary",
        ),
        (
            &["judge", book, "00", "--profile", "weak"],
            "--profile needs strong or ordinary, not weak",
        ),
        (
            &["text", book, "--profile", "strong"],
            "text has no option --profile",
        ),
        (
            &["translate", book, "--profile", "strong"],
            "translate has no option --profile",
        ),
        (&["judge", book], "judge needs a FILE and a MODEL"),
        (&["judge", book, "0"], "0 is not two hex digits a byte"),
        (&["judge", book, "+1"], "+1 has other than hex digits"),
        (&["judge", book, "@not/there"], "can't read not/there"),
        (
            &["judge", book, "00", "--budget", "1"],
            "judge has no option",
        ),
        (&["assign", book], "assign needs a FILE and an ASSIGNMENT"),
        (&["encode", book, "--raw", "--json"], "--json and --raw"),
        (&["text"], "text needs a FILE"),
        (&["text", book, "--raw"], "text has no option --raw"),
        (&["explain", book, "--file"], "explain has no option --file"),
        (&["explain", "not/there"], "can't read not/there"),
        (&["explain", "."], "can't read ."),
        (&["draw", book, "--colour"], "draw has no option --colour"),
    ] {
        let run = run(args);
        assert_eq!((run.status, &*run.out), (64, ""), "{args:?}");
        assert_eq!(run.err.lines().count(), 1, "{args:?}: {}", run.err);
        let start = format!("hollyspool: {line}");
        assert!(run.err.starts_with(&start), "{args:?}: {}", run.err);
    }
}

#[test]
fn help_everywhere() {
    let all = run(&["--help"]);
    assert_eq!((all.status, &*all.err), (0, ""));
    for command in COMMANDS {
        let usage = format!("hollyspool {command} FILE");
        assert!(all.out.contains(&usage), "{command}");
        for args in [&[command, "--help"][..], &[command, "no such file", "-h"]] {
            let help = run(args);
            assert_eq!((help.status, &*help.err), (0, ""), "{command}");
            assert!(help.out.starts_with(&usage), "{command}");
            assert!(help.out.contains("Exit status"), "{command}");
        }
    }
}
