//! The command `dci`: codes and reads 5G downlink control messages with the proved library.

use cli::commands::{find, help, known, names};
use cli::failure::Failure;
use cli::options::Options;
use cli::streams;
use std::env;
use std::ffi::OsString;
use std::io::{self, Write};
use std::process::ExitCode;

fn main() -> ExitCode {
    let words: Vec<OsString> = env::args_os().skip(1).collect();
    match run(&words).and_then(|printed| print(&printed)) {
        Ok(()) => ExitCode::SUCCESS,
        Err(failure) => {
            complain(&failure, words.first());
            ExitCode::from(failure.status())
        }
    }
}

/// What is to be printed.
fn run(words: &[OsString]) -> Result<String, Failure> {
    let Some((name, rest)) = words.split_first() else {
        streams::say(&help::list());
        let text = format!("no command: expected {}", names());
        return Err(Failure::Usage(text));
    };
    let command = known(name)?;
    let mut options = rest.iter().take_while(|word| *word != "--");
    if options.any(|word| word == "--help" || word == "-h") {
        return Ok(command.help());
    }
    let options = Options::read(command.options, command.operand, rest)?;
    (command.run)(&options)
}

/// Writes to standard output, once it is known what.
fn print(printed: &str) -> Result<(), Failure> {
    Ok(streams::file(&io::stdout())?.write_all(printed.as_bytes())?)
}

/// Says on standard error what was wrong, and where to read on.
fn complain(failure: &Failure, name: Option<&OsString>) {
    let Some(message) = failure.message() else {
        return;
    };
    let command = name.and_then(|name| find(name));
    let name = command.map_or(String::new(), |command| format!(" {}", command.name));
    streams::say(&format!("dci{name}: {message}"));
    if matches!(failure, Failure::Usage(_)) {
        streams::say(&format!("`dci help{name}` shows what can be given"));
    }
}
