//! `dci encode`

use crate::answers::of_sizes;
use crate::commands::Command;
use crate::failure::Failure;
use crate::options::{ID, Known, LENGTH, LEVEL, N_RNTI, Options, PAYLOAD, RNTI, SIZE};
use crate::{picture, text};
use speltfeather::{Numbers, Refusal};

const AS: Known = Known {
    name: "--as",
    value: Some("hex, bits, strip or soft"),
    help: "\
--as FORM     how to print the coded bits, first bit first:
                hex    hexadecimal digits, the default
                bits   digits 0 and 1
                strip  a picture, 64 bits in a line
                soft   soft values without noise, as `dci decode` reads them
",
};

pub const COMMAND: Command = Command {
    name: "encode",
    summary: "codes a payload into E scrambled bits",
    usage: "--size A (--length E | --level L) --rnti R --id N
                  [--n-rnti C] --payload P [--as FORM]",
    notes: "\
example: the message that announces SIB1
  dci encode --size 37 --level 4 --rnti 0xffff --id 1 --payload 5400a00000

exit status: 0 if the message was coded; the answer's number, 1 to 6, if it was
refused (`dci answers` lists them); 64 if the command line is wrong; 66 if the
output cannot be written
",
    options: &[&SIZE, &LENGTH, &LEVEL, &RNTI, &ID, &N_RNTI, &PAYLOAD, &AS],
    operand: None,
    run,
};

/// The strength of the soft values that are printed.
const STRENGTH: i32 = 64;
/// How many of them stand in a line.
const IN_A_LINE: usize = 18;

#[derive(Clone, Copy)]
enum Form {
    Hex,
    Bits,
    Strip,
    Soft,
}

fn run(options: &Options) -> Result<String, Failure> {
    let numbers = options.numbers()?;
    let payload = text::payload(&options.needed(&PAYLOAD)?, numbers.a)?;
    let forms = [
        ("hex", Form::Hex),
        ("bits", Form::Bits),
        ("strip", Form::Strip),
        ("soft", Form::Soft),
    ];
    let form = options.choice(&AS, &forms)?;
    // An E that no buffer should be made for is refused before its length counts.
    let mut coded = vec![0; numbers.e.min(1728) as usize];
    speltfeather::encode(&numbers, &payload, &mut coded).map_err(|refusal| {
        let text = explained(refusal, &numbers, &options.given_length(), &payload);
        Failure::Answer(refusal, text)
    })?;
    Ok(text::joined(&lines(form, &coded)))
}

fn lines(form: Form, coded: &[u8]) -> Vec<String> {
    match form {
        Form::Hex => vec![text::hex(coded)],
        Form::Bits => vec![text::digits(coded)],
        Form::Strip => picture::strip(coded.iter().map(|&bit| picture::bit(bit))),
        Form::Soft => coded.chunks(IN_A_LINE).map(soft_line).collect(),
    }
}

fn soft_line(bits: &[u8]) -> String {
    let value = |&bit: &u8| if bit == 0 { STRENGTH } else { -STRENGTH };
    let values: Vec<String> = bits.iter().map(|bit| value(bit).to_string()).collect();
    values.join(" ")
}

fn explained(refusal: Refusal, numbers: &Numbers, length: &str, payload: &[u8]) -> String {
    let Numbers { a, e, .. } = *numbers;
    if let Some(text) = of_sizes(refusal, a, e, length) {
        return text;
    }
    match refusal {
        Refusal::InputLength => format!(
            "--payload has {} bits: expected {}",
            payload.len(),
            text::wanted(a)
        ),
        Refusal::BadEntry(place) => format!(
            "--payload has {} at place {place}, counted from 0: expected bits, 0 or 1",
            payload[place]
        ),
        other => other.to_string(),
    }
}
