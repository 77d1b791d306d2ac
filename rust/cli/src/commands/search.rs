//! `dci search`

use crate::candidates::Listed;
use crate::commands::Command;
use crate::failure::Failure;
use crate::inputs::{self, Input};
use crate::options::{self, ID, Known, Options};
use crate::searching::Search;
use crate::{soft, text};
use speltfeather::{CCE, Candidate, Found, MAX_PAYLOAD};
use std::ffi::OsStr;

const CANDIDATES: Known = Known {
    name: "--candidates",
    value: Some("the file with the candidates, or - for standard input"),
    help: "\
--candidates LIST
                the file with the candidates, or - for standard input
",
};

const N_RNTI: Known = Known {
    name: options::N_RNTI.name,
    value: options::N_RNTI.value,
    help: "\
--n-rnti C    n_RNTI of the candidates whose line has none, 0 to 65535; 0 if
                it is left out
",
};

const AS: Known = Known {
    name: "--as",
    value: Some("table, csv, hex or bits"),
    help: "\
--as FORM     what to print:
                table  the candidate, its numbers, the payload in hexadecimal
                       digits, where it lay, and the noise count; the default
                csv    the same as a line with commas, below a line of names
                hex    the payload, and the noise count on a second line, as
                       `dci decode --report` prints them
                bits   the same, the payload in digits 0 and 1
",
};

const FILE: Known = Known {
    name: "FILE",
    value: Some("one file"),
    help: "\
FILE          the soft values of the region, 108 for each CCE, the first CCE
                first; standard input if there is none, or -
",
};

pub const COMMAND: Command = Command {
    name: "search",
    summary: "looks for a message at the candidates of a region",
    usage: "--id N --candidates LIST [--n-rnti C] [--as FORM] [FILE]",
    notes: "\
The region is 0 to 64 CCEs, in soft values as `dci decode` reads them. The list
has a line for each of at most 44 candidates:

  # first CCE, level, A, RNTI, n_RNTI
  0   8  40  0x4601  0x4601
  4   4  37  0xffff

The first CCE is a multiple of the level. Numbers are decimal, or hexadecimal
after 0x; between them stand spaces, commas, semicolons or brackets; # starts a
comment.

n_RNTI is needed in a user-specific (UE-specific) search space with a configured
identity, and is the C-RNTI there. Elsewhere it is 0. A line may leave it out,
and then has that of --n-rnti. All candidates are tried under one n_ID, that of
--id: search spaces with different n_ID take a search each.

The candidates are tried in their order up to the first that decodes, and that
one is shown; to find further messages, search again with the lines behind it.
One that cannot be a message does not decode: one of level 3, say, one that
reaches outside the region, or one with a soft value outside -127..127 in it.
A message of level 16 may also decode at level 8 with the same first CCE, and
one of level 8 at level 16: the first in the list is shown. Each candidate that
is tried takes noise for a message about once in 2^24 times.

The noise count is how many soft values of the candidate shown are not 0 and
have the wrong sign for their bit of its payload coded again. It is 0 without
noise. It is held against the payload that was accepted, whether or not that one
was sent.

example: a region of 16 CCEs with a message in CCEs 4 to 7, and zeros, which say
nothing, around it
  { yes 0 | head -n 432
    dci encode --size 37 --level 4 --rnti 0xffff --id 1 \\
      --payload 5400a00000 --as soft
    yes 0 | head -n 864; } > region.txt
  echo 4 4 37 0xffff | dci search --id 1 --candidates - region.txt
and the same in noise:
  awk 'BEGIN { srand(1) }
    { for (k = 1; k <= NF; k++) print int($k / 2 + 90 * rand() - 45) }' \\
    region.txt > noisy.txt

exit status: 0 if a candidate was accepted; the answer's number, 4 or 8, if not
(`dci answers` lists them; 8 is that none was); 64 if the command line is wrong;
66 if region or list cannot be read or are more than 1 MiB of text, or if the
output cannot be written
",
    options: &[&ID, &CANDIDATES, &N_RNTI, &AS],
    operand: Some(&FILE),
    run,
};

/// What was found.
struct Shown<'a> {
    found: Found<'a>,
    listed: Listed,
    source: &'a str,
    payload: &'a [u8],
}

type Form = fn(&Shown) -> Vec<String>;

fn run(options: &Options) -> Result<String, Failure> {
    let n_id = options.number(&ID, 16)? as u16;
    let n_rnti = options.number_or_0(&N_RNTI, 16)? as u16;
    let forms: [(&str, Form); 4] = [
        ("table", table),
        ("csv", csv),
        ("hex", |shown| vec![text::hex(shown.payload), noise(shown)]),
        ("bits", |shown| {
            vec![text::digits(shown.payload), noise(shown)]
        }),
    ];
    let form = options.choice(&AS, &forms)?;
    let (list, region) = read(options)?;
    let search = Search::read(n_id, n_rnti, list, region)?;
    let mut payload = [0; MAX_PAYLOAD];
    let found = speltfeather::search(n_id, &search.values, &search.candidates(), &mut payload)
        .map_err(|refusal| Failure::Answer(refusal, search.explained(refusal)))?;
    Ok(text::joined(&form(&Shown {
        listed: search.list[found.candidate],
        source: &search.source,
        payload: &payload[..found.size],
        found,
    })))
}

/// The texts of the list and of the region.
fn read(options: &Options) -> Result<(Input, Input), Failure> {
    let list = Some(options.needed_file(&CANDIDATES)?);
    let region = options.operand.as_deref();
    if inputs::is_standard(list) && inputs::is_standard(region) {
        return Err(Failure::Usage(
            "list and region both come from standard input: expected a file for one of them".into(),
        ));
    }
    let input = |file: Option<&OsStr>, what| inputs::read(file, what, COMMAND.name);
    Ok((input(list, "candidates")?, input(region, "soft values")?))
}

/// The first and the last CCE of a candidate that was found, and the same of its soft values.
fn place(candidate: &Candidate) -> [(usize, usize); 2] {
    let first = candidate.first_cce as usize;
    let end = first + candidate.level as usize;
    [(first, end - 1), (CCE * first, CCE * end - 1)]
}

/// The noise count, as `dci decode --report` prints it.
fn noise(shown: &Shown) -> String {
    soft::noise(shown.found.noise, shown.found.stretch.len())
}

fn table(shown: &Shown) -> Vec<String> {
    let Listed { candidate, line } = shown.listed;
    let [cces, values] = place(&candidate).map(|(first, last)| text::ranges(first..=last).concat());
    let (place, source) = (shown.found.candidate, shown.source);
    vec![
        format!("candidate                {place}, counted from 0: line {line} of {source}"),
        format!("first CCE                {}", candidate.first_cce),
        format!("aggregation level        {}", candidate.level),
        format!("payload size A           {}", candidate.a),
        format!("RNTI                     0x{:04x}", candidate.rnti),
        format!("n_RNTI                   0x{:04x}", candidate.n_rnti),
        format!("payload                  {}", text::hex(shown.payload)),
        format!("CCEs                     {cces}"),
        format!("soft values              {values}"),
        noise(shown),
    ]
}

fn csv(shown: &Shown) -> Vec<String> {
    let Listed { candidate, line } = shown.listed;
    let Candidate {
        level,
        a,
        rnti,
        n_rnti,
        ..
    } = candidate;
    let [(cce, last_cce), (value, last_value)] = place(&candidate);
    let (place, noise) = (shown.found.candidate, shown.found.noise);
    let payload = text::hex(shown.payload);
    vec![
        "candidate,line,first_cce,last_cce,level,size,rnti,n_rnti,payload,first_value,last_value,\
         noise"
            .into(),
        format!(
            "{place},{line},{cce},{last_cce},{level},{a},0x{rnti:04x},0x{n_rnti:04x},{payload},\
             {value},{last_value},{noise}"
        ),
    ]
}
