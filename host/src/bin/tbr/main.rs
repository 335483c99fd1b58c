//! `tbr`: judge a bridge, show a file, make files from text. `tbr --help` says how.

mod arguments;
mod check;
mod csv;
mod end;
mod input;
mod json;
mod judge;
mod make;
mod output;
mod show;
mod table;
mod take;
mod value;
mod yard;

use arguments::{quoted, Arguments};
use end::{End, Status};
use std::ffi::OsString;
use std::io::Write;
use std::process::ExitCode;

const HELP: &str = include_str!("help/tbr.txt");

/// A command: its name, its page of help, its options, and what runs it.
struct Command {
    name: &'static str,
    help: &'static str,
    options: &'static [&'static str],
    run: fn(&Arguments) -> Result<End, String>,
}

const COMMANDS: [Command; 4] = [
    Command {
        name: "judge",
        help: include_str!("help/judge.txt"),
        options: &["--csv", "--json"],
        run: judge::run,
    },
    Command {
        name: "yard",
        help: include_str!("help/yard.txt"),
        options: &["--csv", "--json"],
        run: yard::run,
    },
    Command { name: "show", help: include_str!("help/show.txt"), options: &[], run: show::run },
    Command {
        name: "make",
        help: include_str!("help/make.txt"),
        options: &["--back", "--force", "--yard"],
        run: make::run,
    },
];

/// Wrong use, in one line, and the command that says how.
fn wrong_use(words: &str, help: &str) -> End {
    let errors = format!("tbr: {words}; '{help}' says how\n");
    End { status: Status::Wrong, out: Vec::new(), errors }
}

fn is_help(word: &OsString) -> bool {
    word == "--help" || word == "-h"
}

fn run_command(command: &Command, words: &[OsString]) -> End {
    let before_names = words.split(|word| word == "--").next().unwrap_or_default();
    if before_names.iter().any(is_help) {
        return End::done(command.help);
    }
    let done = Arguments::new(words, command.options).and_then(|words| (command.run)(&words));
    let name = command.name;
    done.unwrap_or_else(|words| {
        wrong_use(&format!("{name}: {words}"), &format!("tbr {name} --help"))
    })
}

fn run(words: &[OsString]) -> End {
    let Some((first, rest)) = words.split_first() else {
        return wrong_use("nothing to do", "tbr --help");
    };
    let named = |word: &OsString| COMMANDS.iter().find(|command| word == command.name);
    if let Some(command) = named(first) {
        return run_command(command, rest);
    }
    match first.to_str() {
        Some("help") => {
            End::done(rest.first().and_then(named).map_or(HELP, |command| command.help))
        }
        Some("--help" | "-h") => End::done(HELP),
        Some("--version" | "-V") => End::done(concat!("tbr ", env!("CARGO_PKG_VERSION"), "\n")),
        _ => wrong_use(&format!("there is no command {}", quoted(first)), "tbr --help"),
    }
}

/// What a command printed goes out; where standard output does not take it, that is said.
fn print(End { mut status, out, mut errors }: End) -> Status {
    let mut stdout = std::io::stdout();
    if let Err(error) = stdout.write_all(&out).and_then(|()| stdout.flush()) {
        errors += &format!("tbr: standard output: cannot be written: {error}\n");
        status = status.max(Status::Wrong);
    }
    match std::io::stderr().write_all(errors.as_bytes()) {
        Ok(()) => status,
        Err(_) => status.max(Status::Wrong),
    }
}

fn main() -> ExitCode {
    let words: Vec<OsString> = std::env::args_os().skip(1).collect();
    ExitCode::from(print(run(&words)).number())
}
