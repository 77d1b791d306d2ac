//! `dci answers`

use crate::answers::{ANSWERS, Answer};
use crate::commands::Command;
use crate::failure::Failure;
use crate::options::Options;

pub const COMMAND: Command = Command {
    name: "answers",
    summary: "lists the numbers that the calls give back",
    usage: "",
    notes: "\
The numbers are tested in their order, and the first that applies is given. On
every number but 0 the output buffer holds what it held before the call, and the
noise count is 0.
",
    options: &[],
    operand: None,
    run,
};

fn run(_: &Options) -> Result<String, Failure> {
    let entry = |answer: &Answer| {
        let Answer {
            number, c, rust, ..
        } = answer;
        format!("{number}  {}\n   C {c}, Rust {rust}\n", answer.meaning)
    };
    Ok(ANSWERS.iter().map(entry).collect())
}
