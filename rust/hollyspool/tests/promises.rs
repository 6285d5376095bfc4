//! docs/PROMISES.md keeps step with the tree: it names every must-fail edit, and every function that
//! crates share has a statement, or is of a crate that is exempt there, and is listed where it has a
//! condition.

use std::fs;
use std::path::{Path, PathBuf};

fn root() -> PathBuf {
    Path::new(env!("CARGO_MANIFEST_DIR")).join("../..")
}

fn promises() -> String {
    fs::read_to_string(root().join("docs/PROMISES.md")).expect("the promises are there")
}

/// The files with this ending in the folder `part` of each crate, with the crate's name.
fn files(part: &str, ending: &str) -> Vec<(String, PathBuf)> {
    let mut found = Vec::new();
    for one in fs::read_dir(root().join("crates")).expect("there are crates") {
        let folder = one.expect("a crate").path();
        let name = folder
            .file_name()
            .expect("a name")
            .to_string_lossy()
            .into_owned();
        let Ok(inside) = fs::read_dir(folder.join(part)) else {
            continue;
        };
        for file in inside {
            let path = file.expect("a file").path();
            if path.extension().is_some_and(|e| e == ending) {
                found.push((name.clone(), path));
            }
        }
    }
    assert!(!found.is_empty());
    found
}

#[test]
fn every_edit_is_named() {
    let text = promises();
    for (name, path) in files("must-fail", "edit") {
        let edit = path
            .file_stem()
            .expect("a name")
            .to_string_lossy()
            .into_owned();
        let told = match edit.strip_suffix("_throughout") {
            Some(lie) => text.contains(&format!("`{lie}`, `.._throughout`")),
            None => text.contains(&format!("`{edit}`")),
        };
        assert!(told, "{name}/{edit} is not in docs/PROMISES.md");
    }
}

/// The `pub` functions of a file, each with what stands between its name and its body.
fn public_functions(source: &str) -> Vec<(String, String)> {
    let mut found = Vec::new();
    for start in source.split("pub fn ").skip(1) {
        let name: String = start
            .chars()
            .take_while(|&c| c.is_alphanumeric() || c == '_')
            .collect();
        let head = start
            .split("\n{")
            .next()
            .and_then(|h| h.split("\n    {").next());
        found.push((name, head.expect("a head").to_string()));
    }
    found
}

#[test]
fn what_crates_share_is_stated() {
    let text = promises();
    let (_, listed) = text
        .split_once("### Inner calls with a condition")
        .expect("the section");
    let listed = listed.split("\n## ").next().expect("its text");
    let exempt = listed
        .lines()
        .find(|l| l.contains("have no `ensures`"))
        .expect("the crates whose functions say nothing");
    for (name, path) in files("src", "rt") {
        if path.with_file_name("main.rt").exists() {
            continue;
        }
        for (function, head) in public_functions(&fs::read_to_string(&path).expect("source")) {
            assert!(
                head.contains("ensures") || exempt.contains(&format!("`{name}`")),
                "{name}::{function} says nothing of its result"
            );
            if head.contains("requires") {
                let full = format!("{name}::");
                let row = listed
                    .lines()
                    .find(|l| l.contains(&full))
                    .unwrap_or_default();
                let told = row.contains(&format!("`{function}`"))
                    || row.contains(&format!("::{function}`"));
                assert!(told, "{name}::{function} has a condition and is not listed");
            }
        }
    }
}
