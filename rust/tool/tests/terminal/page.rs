//! The commands of docs/FIRST_BOOK.md and of README.md print what the pages say.

use std::process::Command;

use crate::run::{run_on, tool};

const ROOT: &str = concat!(env!("CARGO_MANIFEST_DIR"), "/../..");

fn page(name: &str) -> String {
    std::fs::read_to_string(format!("{ROOT}/{name}")).expect("the page is there")
}

/// What a command of a page prints: `hollyspool ARGUMENTS`, or that with `echo 'TEXT' |` before it.
fn printed(command: &str) -> String {
    if let Some(piped) = command.strip_prefix("echo '") {
        let (text, command) = piped.split_once("' | hollyspool ").expect("a pipe");
        let args: Vec<&str> = command.split(' ').collect();
        return run_on(format!("{text}\n").as_bytes(), &args).out;
    }
    let args = command.strip_prefix("hollyspool ").expect("the tool");
    output(&mut tool(&args.split(' ').collect::<Vec<_>>()))
}

fn output(command: &mut Command) -> String {
    let output = command.current_dir(ROOT).output().expect("it runs");
    String::from_utf8_lossy(&output.stdout).into_owned()
}

#[test]
fn commands_of_the_first_page() {
    let page = page("docs/FIRST_BOOK.md");
    let mut commands = 0;
    for block in page.split("```console\n").skip(1) {
        let (block, _) = block.split_once("```").expect("a block ends");
        for command in block.split("$ ").skip(1) {
            let (line, expected) = command.split_once('\n').expect("a line ends");
            assert_eq!(printed(line), expected, "{line}");
            commands += 1;
        }
    }
    assert_eq!(commands, 15);
}

/// The first command of README.md searches a text, which stands there, and then what it prints.
#[test]
fn first_command_of_the_readme() {
    let page = page("README.md");
    let blocks: Vec<&str> = page.split("```").skip(1).step_by(2).collect();
    let [command, text, expected, ..] = &blocks[..] else {
        panic!("fewer than three blocks");
    };
    let (_, args) = command.trim().split_once(" -p tool -- ").expect("the tool");
    assert_eq!(args.lines().count(), 1);
    let path = args.strip_prefix("search ").expect("a search");
    let sample = std::fs::read_to_string(format!("{ROOT}/{path}")).expect("a text");
    assert_eq!(text.trim_start(), sample);
    assert_eq!(
        printed(&format!("hollyspool {args}")),
        expected.trim_start()
    );
}
