//! The commands.

mod answers;
mod decode;
mod encode;
pub mod help;
mod info;
mod search;
mod version;

use crate::failure::Failure;
use crate::options::{Known, Options};
use crate::text::shown;
use std::ffi::OsStr;

/// A command: its options, its operand if it takes one, and what it does.
pub struct Command {
    pub name: &'static str,
    pub summary: &'static str,
    pub usage: &'static str,
    /// What the help says behind the options.
    pub notes: &'static str,
    pub options: &'static [&'static Known],
    pub operand: Option<&'static Known>,
    /// Gives what is printed.
    pub run: fn(&Options) -> Result<String, Failure>,
}

impl Command {
    /// The page that `dci help` shows.
    pub fn help(&self) -> String {
        let Self {
            name,
            summary,
            notes,
            ..
        } = self;
        let usage = format!("dci {name} {}", self.usage);
        let mut list: String = (self.options.iter().copied())
            .chain(self.operand)
            .map(|known| format!("  {}", known.help))
            .collect();
        if !list.is_empty() {
            list.push('\n');
        }
        format!(
            "dci {name} - {summary}\n\nusage: {}\n\n{list}{notes}",
            usage.trim()
        )
    }
}

pub static COMMANDS: [Command; 7] = [
    encode::COMMAND,
    decode::COMMAND,
    search::COMMAND,
    info::COMMAND,
    answers::COMMAND,
    help::COMMAND,
    version::COMMAND,
];

/// The command of that name, or of an option that stands for it.
pub fn find(name: &OsStr) -> Option<&'static Command> {
    let name = match name.to_str()? {
        "--help" | "-h" => "help",
        "--version" | "-V" => "version",
        name => name,
    };
    COMMANDS.iter().find(|command| command.name == name)
}

/// The command of that name.
///
/// # Errors
/// There is none.
pub fn known(name: &OsStr) -> Result<&'static Command, Failure> {
    let unknown = || {
        let name = shown(name);
        Failure::Usage(format!("`{name}` is not a command: expected {}", names()))
    };
    find(name).ok_or_else(unknown)
}

/// The names of the commands, as a complaint lists them.
pub fn names() -> String {
    let names = COMMANDS.each_ref().map(|command| command.name);
    let (last, others) = names.split_last().expect("there are commands");
    format!("{} or {last}", others.join(", "))
}
