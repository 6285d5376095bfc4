//! The command line, taken apart. Nothing is opened here.

use std::ffi::{OsStr, OsString};
use std::path::Path;

use hollyspool::Profile;

/// What is asked.
#[derive(Clone, Copy, PartialEq, Eq)]
pub enum Command {
    Search,
    Judge,
    Encode,
    Assign,
    Explain,
    Draw,
    Text,
    Translate,
}

impl Command {
    pub const ALL: [Command; 8] = [
        Command::Search,
        Command::Judge,
        Command::Encode,
        Command::Assign,
        Command::Explain,
        Command::Draw,
        Command::Text,
        Command::Translate,
    ];

    /// The word for it.
    pub fn name(self) -> &'static str {
        match self {
            Command::Search => "search",
            Command::Judge => "judge",
            Command::Encode => "encode",
            Command::Assign => "assign",
            Command::Explain => "explain",
            Command::Draw => "draw",
            Command::Text => "text",
            Command::Translate => "translate",
        }
    }

    /// Whether its answer depends on the profile.
    fn has_profile(self) -> bool {
        !matches!(self, Command::Text | Command::Translate)
    }

    /// What it needs besides the book.
    fn second(self) -> Option<&'static str> {
        match self {
            Command::Judge => Some("a MODEL"),
            Command::Assign => Some("an ASSIGNMENT"),
            _ => None,
        }
    }
}

/// A command with all it needs.
pub struct Request {
    pub command: Command,
    /// The path of the book or the text, or `-`.
    pub file: OsString,
    /// With n and p if it is a text.
    pub text: Option<Reach>,
    /// The model or the assignment, as hex or `@path`; spaces may have made it several arguments.
    pub bytes: Vec<OsString>,
    pub budget: u64,
    pub profile: Profile,
    pub json: bool,
    /// The encoding's bytes in place of its rows in words.
    pub raw: bool,
    /// A whole file in place of the text alone.
    pub whole: bool,
}

/// How far a text is searched: the bounds that it doesn't give itself.
#[derive(Clone, Copy)]
pub struct Reach {
    pub n: u64,
    pub p: u64,
}

/// The n of a text where none is given; p is then the same.
const USUAL: u64 = 4;

/// What a command line asks for.
pub enum Parsed {
    Help(Option<Command>),
    Run(Request),
}

/// The request, or a line that says what is wrong.
pub fn parse(args: impl Iterator<Item = OsString>) -> Result<Parsed, String> {
    let mut args: Vec<OsString> = args.collect();
    let help = args.iter().any(|arg| arg == "--help" || arg == "-h");
    args.retain(|arg| arg != "--help" && arg != "-h");
    let command = match args.first() {
        None if help => return Ok(Parsed::Help(None)),
        None => return Err("no command is given".to_owned()),
        Some(word) => Command::ALL
            .into_iter()
            .find(|command| word == command.name())
            .ok_or_else(|| format!("there is no command {}", word.display()))?,
    };
    if help {
        return Ok(Parsed::Help(Some(command)));
    }
    request(command, args.into_iter().skip(1)).map(Parsed::Run)
}

fn request(command: Command, args: impl Iterator<Item = OsString>) -> Result<Request, String> {
    let options = options(command, args)?;
    if options.json && options.raw {
        return Err("--json and --raw exclude each other".to_owned());
    }
    let name = command.name();
    let mut plain = options.plain.into_iter();
    let file = plain.next().ok_or_else(|| format!("{name} needs a FILE"))?;
    let text = options.reach.of(command, &file)?;
    let bytes: Vec<OsString> = plain.collect();
    match (command.second(), bytes.first()) {
        (Some(what), None) => Err(format!("{name} needs a FILE and {what}")),
        (None, Some(extra)) => Err(format!("{name} takes one FILE, and no {}", extra.display())),
        _ => Ok(Request {
            command,
            file,
            text,
            bytes,
            budget: options.budget,
            profile: options.profile,
            json: options.json,
            raw: options.raw,
            whole: options.whole,
        }),
    }
}

/// The options, and what is none.
struct Options {
    plain: Vec<OsString>,
    reach: Given,
    budget: u64,
    profile: Profile,
    json: bool,
    raw: bool,
    whole: bool,
}

/// The options of a text.
#[derive(Default)]
struct Given {
    text: bool,
    n: Option<u64>,
    p: Option<u64>,
}

impl Given {
    /// n and p, if the file is a text.
    fn of(&self, command: Command, file: &OsStr) -> Result<Option<Reach>, String> {
        let ends_so = Path::new(file).extension().is_some_and(|end| end == "smt2");
        if self.text || ends_so || command == Command::Translate {
            let n = self.n.unwrap_or(USUAL);
            let p = self.p.unwrap_or(n);
            return Ok(Some(Reach { n, p }));
        }
        match (self.n, self.p) {
            (None, None) => Ok(None),
            _ => Err("--n and --p are for a text: a FILE.smt2, or any with --text".to_owned()),
        }
    }
}

fn options(command: Command, mut args: impl Iterator<Item = OsString>) -> Result<Options, String> {
    let mut options = Options {
        plain: Vec::new(),
        reach: Given::default(),
        budget: u64::MAX,
        profile: Profile::default(),
        json: false,
        raw: false,
        whole: false,
    };
    while let Some(arg) = args.next() {
        match arg.to_str() {
            Some("--budget") if matches!(command, Command::Search | Command::Draw) => {
                options.budget = number("--budget", args.next())?;
            }
            Some("--profile") if command.has_profile() => {
                options.profile = profile(args.next())?;
            }
            Some("--text") => options.reach.text = true,
            Some("--n") if command != Command::Translate => {
                options.reach.n = Some(number("--n", args.next())?);
            }
            Some("--p") if command != Command::Translate => {
                options.reach.p = Some(number("--p", args.next())?);
            }
            Some("--json") => options.json = true,
            Some("--raw") if command == Command::Encode => options.raw = true,
            Some("--file") if command == Command::Text => options.whole = true,
            Some(option) if option.starts_with('-') && option != "-" => {
                return Err(format!("{} has no option {option}", command.name()));
            }
            _ => options.plain.push(arg),
        }
    }
    Ok(options)
}

/// The profile that is picked.
fn profile(arg: Option<OsString>) -> Result<Profile, String> {
    let arg = arg.ok_or("--profile needs strong or ordinary")?;
    match arg.to_str() {
        Some("strong") => Ok(Profile::Strong),
        Some("ordinary") => Ok(Profile::Ordinary),
        _ => Err(format!(
            "--profile needs strong or ordinary, not {}",
            arg.display()
        )),
    }
}

/// An option's number: any of 64 bits.
fn number(option: &str, arg: Option<OsString>) -> Result<u64, String> {
    let arg = arg.ok_or_else(|| format!("{option} needs a number"))?;
    let digits = arg.to_str().and_then(|digits| digits.parse().ok());
    let not = || {
        format!(
            "{option} needs a number from 0 to 2^64-1, not {}",
            arg.display()
        )
    };
    digits.ok_or_else(not)
}
