//! `dci help`

use crate::commands::{COMMANDS, Command, known};
use crate::failure::Failure;
use crate::options::{Known, Options};

const NAME: Known = Known {
    name: "COMMAND",
    value: Some("one command"),
    help: "\
COMMAND       the command to explain; if there is none, all are listed
",
};

pub const COMMAND: Command = Command {
    name: "help",
    summary: "lists the commands, or explains one",
    usage: "[COMMAND]",
    notes: "`dci COMMAND --help` shows the same page, and `dci --help` the same list.\n",
    options: &[],
    operand: Some(&NAME),
    run,
};

fn run(options: &Options) -> Result<String, Failure> {
    match &options.operand {
        Some(name) => Ok(known(name)?.help()),
        None => Ok(list()),
    }
}

/// The page that lists the commands.
pub fn list() -> String {
    let line = |command: &Command| format!("  {:<9} {}\n", command.name, command.summary);
    let lines: String = COMMANDS.iter().map(line).collect();
    format!(
        "\
dci - codes and reads 5G downlink control messages (DCI) with the proved library

usage: dci COMMAND [OPTIONS]

{lines}
`dci help COMMAND` says more of a command.
The exit status is 0 only if the answer was 0 and was printed.
"
    )
}
