//! `dci version`

use crate::commands::Command;
use crate::failure::Failure;
use crate::options::Options;

pub const COMMAND: Command = Command {
    name: "version",
    summary: "says which release this is",
    usage: "",
    notes: "`dci --version` and `dci -V` say the same.\n",
    options: &[],
    operand: None,
    run,
};

fn run(_: &Options) -> Result<String, Failure> {
    Ok(format!("dci {}\n", env!("CARGO_PKG_VERSION")))
}
