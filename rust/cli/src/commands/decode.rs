//! `dci decode`

use crate::answers::{meaning, of_sizes};
use crate::commands::Command;
use crate::failure::Failure;
use crate::options::{ID, Known, LENGTH, LEVEL, N_RNTI, Options, RNTI, SIZE};
use crate::soft::{self, Soft};
use crate::{inputs, text};
use speltfeather::{Numbers, Refusal};

const AS: Known = Known {
    name: "--as",
    value: Some("hex or bits"),
    help: "\
--as FORM     how to print the payload, first bit first:
                hex    hexadecimal digits with zeros behind the last bit, the
                       default
                bits   digits 0 and 1
",
};

const REPORT: Known = Known {
    name: "--report",
    value: None,
    help: "\
--report      print the noise count too, on a second line
",
};

const FILE: Known = Known {
    name: "FILE",
    value: Some("one file"),
    help: "\
FILE          the soft values; standard input if there is none, or -. Its name
                may begin with - if -- stands before it
",
};

pub const COMMAND: Command = Command {
    name: "decode",
    summary: "reads a payload from E soft values and checks its parity",
    usage: "--size A (--length E | --level L) --rnti R --id N
                  [--n-rnti C] [--as FORM] [--report] [FILE]",
    notes: "\
A soft value is a whole number from -127 to 127 for each coded bit, in the order
in which they are sent and still scrambled: positive leans to bit 0, negative to
bit 1, 0 says nothing. Between them stand spaces, new lines, commas, semicolons
or brackets of any kind; # starts a comment, and a byte order mark is skipped.

The noise count is how many of the E soft values are not 0 and have the wrong
sign for their bit of the payload coded again. It is 0 without noise. It is held
against the payload that was accepted, whether or not that one was sent.

example: what `dci encode` sends is read back
  dci encode --size 37 --length 432 --rnti 0xffff --id 1 \\
    --payload 5400a00000 --as soft |
  dci decode --size 37 --length 432 --rnti 0xffff --id 1

exit status: 0 if the payload was accepted; the answer's number, 1 to 7, if not
(`dci answers` lists them; 7 is a parity that does not match); 64 if the command
line is wrong; 66 if the soft values cannot be read or are more than 1 MiB of
text, or if the output cannot be written
",
    options: &[&SIZE, &LENGTH, &LEVEL, &RNTI, &ID, &N_RNTI, &AS, &REPORT],
    operand: Some(&FILE),
    run,
};

fn run(options: &Options) -> Result<String, Failure> {
    let numbers = options.numbers()?;
    let show = options.choice(
        &AS,
        &[
            ("hex", text::hex as fn(&[u8]) -> String),
            ("bits", text::digits),
        ],
    )?;
    let row = inputs::read(options.operand.as_deref(), "soft values", COMMAND.name)?;
    let soft = soft::read(&row)?;
    let values = soft::values(&soft);
    // An A that no buffer should be made for is refused before its length counts.
    let mut payload = vec![0; numbers.a.min(140) as usize];
    let reading = speltfeather::decode(&numbers, &values, &mut payload).map_err(|refusal| {
        let text = explained(refusal, &numbers, &options.given_length(), &soft);
        Failure::Answer(refusal, text)
    })?;
    let mut lines = vec![show(&payload)];
    if options.has(&REPORT) {
        lines.push(soft::noise(reading.noise, values.len()));
    }
    Ok(text::joined(&lines))
}

fn explained(refusal: Refusal, numbers: &Numbers, length: &str, soft: &[Soft]) -> String {
    let Numbers { a, e, .. } = *numbers;
    if let Some(text) = of_sizes(refusal, a, e, length) {
        return text;
    }
    match refusal {
        Refusal::InputLength => format!(
            "there are {} soft values: expected {e}, as {length} says",
            soft.len()
        ),
        Refusal::BadEntry(place) => format!(
            "soft value {place}, counted from 0, is {} (line {}): expected -127 to 127",
            soft[place].value, soft[place].line
        ),
        Refusal::ParityMismatch => format!("{}{}", meaning(refusal), soft::hint(soft)),
        other => other.to_string(),
    }
}
