//! `dci info`

use crate::answers::of_sizes;
use crate::commands::Command;
use crate::failure::Failure;
use crate::options::{Known, LENGTH, LEVEL, Options, SIZE};
use crate::{picture, text};
use speltfeather::{Code, RateMatching, Role};

const AS: Known = Known {
    name: "--as",
    value: Some("both, table, strip or csv"),
    help: "\
--as FORM     what to print:
                both   the table and then the strip, the default
                table  the numbers, and the positions as ranges
                strip  a picture, 64 positions in a line
                csv    a line for each position: its number and what it is
",
};

pub const COMMAND: Command = Command {
    name: "info",
    summary: "shows the code of a size and a length: K, N, kind and positions",
    usage: "--size A (--length E | --level L) [--as FORM]",
    notes: "\
A position is one of the N inputs of the polar transform. An information
position carries a bit of payload or parity. A barred one is frozen because of
rate matching (38.212 5.4.1.1), and any other is frozen because more reliable
ones are there.

example: dci info --size 37 --length 432

exit status: 0 if the sizes are accepted; the answer's number, 1 to 3, if not
(`dci answers` lists them); 64 if the command line is wrong; 66 if the output
cannot be written
",
    options: &[&SIZE, &LENGTH, &LEVEL, &AS],
    operand: None,
    run,
};

/// How long a line of positions may be.
const LINE: usize = 64;

/// What is shown of a code.
struct Shown {
    a: u64,
    e: u64,
    code: Code,
}

type Form = fn(&Shown) -> Vec<String>;

fn run(options: &Options) -> Result<String, Failure> {
    let (a, e) = options.sizes()?;
    let forms: [(&str, Form); 4] = [
        ("both", both),
        ("table", table),
        ("strip", strip),
        ("csv", csv),
    ];
    let form = options.choice(&AS, &forms)?;
    let code = Code::of(a, e).map_err(|refusal| {
        let text = of_sizes(refusal, a, e, &options.given_length());
        Failure::Answer(refusal, text.unwrap_or_else(|| refusal.to_string()))
    })?;
    Ok(text::joined(&form(&Shown { a, e, code })))
}

fn both(shown: &Shown) -> Vec<String> {
    [table(shown), vec![String::new()], strip(shown)].concat()
}

fn table(shown: &Shown) -> Vec<String> {
    let Shown { a, e, code } = shown;
    let frozen = || {
        let roles = code.roles().iter().enumerate();
        roles.filter_map(|(i, role)| (*role == Role::Frozen).then_some(i))
    };
    let mut lines = vec![
        format!("payload size A           {a}"),
        format!("payload and parity K     {}", a + 24),
        format!(
            "coded length E           {e}, aggregation level {}",
            e / 108
        ),
        format!("code length N            {}", code.length()),
        format!("rate matching            {}", kind(shown)),
        format!("information positions    {}", code.information().count()),
        format!("barred positions         {}", code.barred().count()),
        format!("other frozen positions   {}", frozen().count()),
    ];
    lines.extend(listed("information", text::ranges(code.information())));
    lines.extend(listed("barred", text::ranges(code.barred())));
    lines.extend(listed("frozen", text::ranges(frozen())));
    lines
}

/// A name and the positions behind it, in lines.
fn listed(name: &str, positions: Vec<String>) -> Vec<String> {
    let positions = match positions.is_empty() {
        true => vec!["none".to_string()],
        false => positions,
    };
    let lines = text::wrapped(&positions, LINE);
    let head = |i| if i == 0 { name } else { "" };
    let line = |(i, line)| format!("{:<13}{line}", head(i));
    let listed = lines.into_iter().enumerate().map(line);
    [String::new()].into_iter().chain(listed).collect()
}

/// The kind of rate matching, and how E bits come of N.
fn kind(shown: &Shown) -> String {
    let (n, e) = (shown.code.length() as u64, shown.e);
    match shown.code.kind() {
        RateMatching::Puncturing => format!(
            "puncturing: {} of {n} code bits are not sent and not known",
            n - e
        ),
        RateMatching::Shortening => format!(
            "shortening: {} of {n} code bits are not sent and known to be 0",
            n - e
        ),
        RateMatching::Repetition => format!(
            "repetition: {} of {n} code bits are sent {}, the others {}",
            e % n,
            times(e / n + 1),
            times(e / n)
        ),
    }
}

fn times(count: u64) -> String {
    match count {
        1 => "once".into(),
        2 => "twice".into(),
        _ => format!("{count} times"),
    }
}

fn strip(shown: &Shown) -> Vec<String> {
    let cell = |role: &Role| match role {
        Role::Information => '█',
        Role::Frozen => '·',
        _ => '×',
    };
    let legend = "       █ information   × barred   · frozen".to_string();
    let lines = picture::strip(shown.code.roles().iter().map(cell));
    [lines, vec![legend]].concat()
}

fn csv(shown: &Shown) -> Vec<String> {
    let name = |role: &Role| match role {
        Role::Information => "information",
        Role::Frozen => "frozen",
        _ => "barred",
    };
    let roles = shown.code.roles().iter().enumerate();
    let lines = roles.map(|(position, role)| format!("{position},{}", name(role)));
    let head = ["position,role".to_string()];
    head.into_iter().chain(lines).collect()
}
