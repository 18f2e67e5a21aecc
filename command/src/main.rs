//! `poilures`: puts files into an HDF5 file and gives them back by name, writes files as objects of a fractal heap and
//! reads objects by their IDs, through the proved functions. Each subcommand has a file of its own.
mod adding;
mod arguments;
mod attributes;
mod block;
mod check;
mod covered;
mod deposit;
mod destination;
mod dump;
mod failure;
mod filters;
mod get;
mod giving;
mod header;
mod heap;
mod held;
mod id;
mod ids;
mod image;
mod index;
mod inputs;
mod joined;
mod library;
mod list;
mod locks;
mod map;
mod memory;
mod message;
mod output;
mod progress;
mod quoting;
mod read;
mod signals;
mod site;
mod slots;
mod streams;
mod table;
mod talk;
mod write;

use arguments::{Arguments, Explain, Subcommands};
use clap::CommandFactory;
use clap::error::ErrorKind;
use clap_complete::Shell;
use failure::Failure;
use fractal_heap::Refusal;
use std::ffi::{OsStr, OsString};
use std::io::{self, Write};
use std::os::unix::ffi::OsStrExt;
use std::process::ExitCode;
use talk::tell;

/// Text on standard output.
fn print(text: &[u8]) -> Result<(), Failure> {
    let mut out = io::stdout().lock();
    let printed = streams::check_output().and_then(|()| out.write_all(text));
    let printed = printed.and_then(|()| out.flush());
    printed.map_err(|error| Failure::printing(&error))
}

/// Numbers that go upward, each run of them by its ends: 1 to 17 and 20.
fn ranges(numbers: &[u32]) -> String {
    let runs = numbers.chunk_by(|a, b| a + 1 == *b);
    let told = runs.map(|run| match run {
        [one] => one.to_string(),
        [first, .., last] => format!("{first} to {last}"),
        [] => String::new(),
    });
    told.collect::<Vec<_>>().join(" and ")
}

fn explain(arguments: &Explain) -> Result<(), Failure> {
    let number = u32::try_from(arguments.number).ok();
    let Some(number) = number.filter(|number| Refusal::NUMBERS.contains(number)) else {
        let numbers = ranges(&Refusal::NUMBERS);
        return Err(Failure::Use(format!("refusals have the numbers {numbers}")));
    };
    let words = match (arguments.first, Refusal::cause(number)) {
        (None, Some(cause)) => format!("refused by {number}: {cause}\n"),
        (first, _) => {
            let refusal = Refusal::new(number, first.unwrap_or(0), arguments.second);
            format!("{refusal}\n")
        }
    };
    print(words.as_bytes())
}

fn completions(shell: Shell) -> Result<(), Failure> {
    let mut text = Vec::new();
    clap_complete::generate(shell, &mut Arguments::command(), "poilures", &mut text);
    print(&text)
}

/// Help and version are asked for; everything else that the words do not give is wrong use.
fn not_parsed(error: &clap::Error) -> Result<(), Failure> {
    let text = error.render().to_string();
    if !error.use_stderr() {
        return print(text.as_bytes());
    }
    let words = match error.kind() {
        ErrorKind::DisplayHelpOnMissingArgumentOrSubcommand => {
            format!("there is nothing to do without a subcommand\n\n{text}")
        }
        _ => text.strip_prefix("error: ").unwrap_or(&text).into(),
    };
    let words = words.trim_end().into();
    // Which words are inputs is not known, so standard error is none of them.
    let is_error = |word: OsString| {
        let value = word.as_bytes().splitn(2, |&byte| byte == b'=').nth(1);
        streams::is_error(&word) || value.is_some_and(|v| streams::is_error(OsStr::from_bytes(v)))
    };
    match std::env::args_os().skip(1).any(is_error) {
        true => Err(Failure::Mute(words)),
        false => Err(Failure::Use(words)),
    }
}

fn run() -> Result<(), Failure> {
    signals::install();
    let arguments = match Arguments::of(std::env::args_os()) {
        Ok(arguments) => arguments,
        Err(error) => return not_parsed(&error),
    };
    match &arguments.subcommand {
        Subcommands::Deposit(arguments) => deposit::deposit(arguments),
        Subcommands::Get(arguments) => get::get(arguments),
        Subcommands::List(arguments) => list::list(arguments),
        Subcommands::Write(arguments) => write::write(arguments),
        Subcommands::Read(arguments) => read::read(arguments),
        Subcommands::Header(arguments) => header::header(arguments),
        Subcommands::Ids(arguments) => ids::ids(arguments),
        Subcommands::Explain(arguments) => explain(arguments),
        Subcommands::Locate(arguments) => slots::locate(arguments),
        Subcommands::Slots(arguments) => slots::slots(arguments),
        Subcommands::Completions { shell } => completions(*shell),
    }
}

/// Says why the program ends, and with which status.
fn ended(failure: &Failure) -> u8 {
    match failure {
        Failure::Use(words) | Failure::Not(words) => tell(&format!("poilures: {words}")),
        Failure::Mute(words) => streams::tell_terminal(&format!("poilures: {words}")),
        Failure::Closed => {}
    }
    failure.exit_status()
}

/// The streams are closed here, where what they did not take can still be said.
fn main() -> ExitCode {
    let printed = || streams::close_output().map_err(|error| Failure::printing(&error));
    let status = run().and_then(|()| printed()).err();
    let status = status.map_or(0, |failure| ended(&failure));
    match (status, streams::close_error()) {
        (0, Err(error)) => ExitCode::from(Failure::printing(&error).exit_status()),
        _ => ExitCode::from(status),
    }
}
