//! The C header and the program that uses it, compiled with every warning an error, and run. The
//! program's output shows that header and archive agree on how arguments and answers pass.

use std::process::Command;

use hollyspool::{MOST_BOOK, MOST_ENCODED, MOST_MODEL, MOST_TEXT};

const C: &str = concat!(env!("CARGO_MANIFEST_DIR"), "/../../exports");
const ARCHIVE: &str = concat!(
    env!("CARGO_MANIFEST_DIR"),
    "/../../crates/exports/out/libexports.a"
);

const OUTPUT: &str = "\
import: number 0 place 0 tried 0
book: 02 01 0b 00 03 00 02 0e 00 03 00 01 01 01 03 01 01
import: number 26 place 8 tried 0
export: number 0 place 0 tried 0
text: (pto v1 v1)
read: number 0 place 0 tried 0
read: number 24 place 1 tried 0
body: 01 01 01
body: 03 01 01
search: number 2 place 0 tried 5
search: number 0 place 0 tried 6
model: 01 01
judge: number 0 place 0 tried 0
encode: number 0 place 0 tried 0
encoding: 02 01 0b 00 03 00 03 0e 00 32 00 01 01 01 04 00 00 00 01 00 00 00 00 00 \
05 00 00 00 01 00 01 00 00 00 07 00 00 00 01 00 00 00 00 00 0d 01 00 00 00 00 00 00 00 00 \
07 00 02 00 03 00 00 00 00 00
assign: number 0 place 0 tried 0
judge: number 1 place 0 tried 0
judge_ordinary: number 0 place 0 tried 0
search_ordinary: number 0 place 0 tried 6
model: 00 00
encode_ordinary: number 0 place 0 tried 0
rows: 13
assign: number 1 place 0 tried 0
assign_ordinary: number 0 place 0 tried 0
";

#[test]
fn example() {
    let program = format!("{}/example", env!("CARGO_TARGET_TMPDIR"));
    let source = format!("{C}/example.c");
    let compiled = Command::new("cc")
        .args(["-std=c99", "-Wall", "-Wextra", "-Werror", "-O2"])
        .args([&*source, ARCHIVE, "-o", &*program])
        .output()
        .expect("there is a C compiler");
    let errors = String::from_utf8_lossy(&compiled.stderr);
    assert!(compiled.status.success(), "{errors}");
    let run = Command::new(&program).output().expect("it runs");
    assert!(run.status.success());
    assert_eq!(String::from_utf8_lossy(&run.stdout), OUTPUT);
}

/// The header's sizes are the wrapper's.
#[test]
fn sizes() {
    let header = std::fs::read_to_string(format!("{C}/hollyspool.h")).expect("a header");
    for (name, most) in [
        ("MODEL", MOST_MODEL),
        ("ENCODED", MOST_ENCODED),
        ("BOOK", MOST_BOOK),
        ("TEXT", MOST_TEXT),
    ] {
        let line = format!("#define HOLLYSPOOL_MOST_{name} {most}\n");
        assert!(header.contains(&line), "no line {line}");
    }
}
