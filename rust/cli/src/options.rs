//! The command line: options with a value, flags without one, and at most one operand.

use crate::failure::Failure;
use crate::text::{number, shown};
use speltfeather::Numbers;
use std::borrow::Cow;
use std::ffi::{OsStr, OsString};
use std::os::unix::ffi::OsStrExt;

/// An option or an operand, and its lines of the help.
#[derive(Debug)]
pub struct Known {
    pub name: &'static str,
    /// What must be given for it; none for a flag, which has no value.
    pub value: Option<&'static str>,
    pub help: &'static str,
}

impl Known {
    fn expected(&self) -> &'static str {
        self.value.unwrap_or("no value")
    }
}

pub const SIZE: Known = Known {
    name: "--size",
    value: Some("the payload size in bits, 12 to 140"),
    help: "\
--size A      payload size in bits, 12 to 140; the 24 parity bits are not
                counted
",
};
pub const LENGTH: Known = Known {
    name: "--length",
    value: Some("the coded length in bits: 108, 216, 432, 864 or 1728"),
    help: "\
--length E    coded length in bits: 108, 216, 432, 864 or 1728
",
};
pub const LEVEL: Known = Known {
    name: "--level",
    value: Some("the aggregation level: 1, 2, 4, 8 or 16"),
    help: "\
--level L     in place of --length: aggregation level 1, 2, 4, 8 or 16, which
                is the coded length 108 L
",
};
pub const RNTI: Known = Known {
    name: "--rnti",
    value: Some("the radio number, 0 to 65535, such as 65535 or 0xffff"),
    help: "\
--rnti R      radio number (RNTI), 0 to 65535: decimal, or hexadecimal after
                0x
",
};
pub const ID: Known = Known {
    name: "--id",
    value: Some("the scrambling identity, 0 to 65535"),
    help: "\
--id N        scrambling identity n_ID, 0 to 65535
",
};
pub const N_RNTI: Known = Known {
    name: "--n-rnti",
    value: Some("n_RNTI, 0 to 65535, such as 17921 or 0x4601"),
    help: "\
--n-rnti C    n_RNTI, 0 to 65535, decimal or hexadecimal after 0x. In a
                user-specific (UE-specific) search space with a configured
                identity it is the C-RNTI, whatever --rnti is; elsewhere it is
                0, as it is if it is left out
",
};
pub const PAYLOAD: Known = Known {
    name: "--payload",
    value: Some("the payload, in bits or in hexadecimal digits"),
    help: "\
--payload P   the payload, first bit first: A bits, or the hexadecimal digits
                that they fill, A/4 rounded up, with zeros behind the last bit.
                So many digits are hexadecimal whatever they begin with (0b1 at
                size 12), so that what `dci decode` prints can be given; other
                text is bits behind 0b and hexadecimal behind 0x. Spaces, _,
                commas, semicolons and brackets may stand between digits
",
};

/// The aggregation levels and their coded lengths: 108 bits for each control channel element.
const LEVELS: [(&str, u64); 5] = [("1", 108), ("2", 216), ("4", 432), ("8", 864), ("16", 1728)];

/// What stood on the command line.
#[derive(Debug, Default)]
pub struct Options {
    /// These and the operand are left as they were given, since a file's name need not be text. A
    /// flag's value is empty.
    values: Vec<(&'static str, OsString)>,
    pub operand: Option<OsString>,
}

impl Options {
    /// Reads the words behind the command's name. Behind `--` each is an operand.
    ///
    /// # Errors
    /// An option that is not known, stands twice or has no value; a flag that has one; an operand that
    /// is not taken.
    pub fn read(
        known: &[&Known],
        operand: Option<&Known>,
        words: &[OsString],
    ) -> Result<Self, Failure> {
        let mut options = Self::default();
        let mut words = words.iter();
        let mut ended = false;
        while let Some(word) = words.next() {
            let text = word.to_string_lossy();
            if ended || text == "-" || !text.starts_with('-') {
                options.take_operand(known, operand, word)?;
            } else if text == "--" {
                ended = true;
            } else {
                options.take_option(known, word, &mut words)?;
            }
        }
        Ok(options)
    }

    /// Takes an option with its value, which is the next word if it is not in the same; or a flag.
    fn take_option<'a>(
        &mut self,
        known: &[&Known],
        word: &OsStr,
        words: &mut impl Iterator<Item = &'a OsString>,
    ) -> Result<(), Failure> {
        let (name, inline) = split(word);
        let option = known.iter().find(|option| option.name == name);
        let option = option.ok_or_else(|| unknown(&name, known))?;
        let value = match option.value {
            None if inline.is_some() => return Err(wrong(&shown(word), option)),
            None => OsString::new(),
            Some(_) => inline
                .or_else(|| words.next().cloned())
                .ok_or_else(|| wrong(&format!("{name} has no value"), option))?,
        };
        if self.value(option).is_some() {
            return Err(Failure::Usage(format!(
                "{name} stands twice: expected once"
            )));
        }
        self.values.push((option.name, value));
        Ok(())
    }

    fn take_operand(
        &mut self,
        known: &[&Known],
        operand: Option<&Known>,
        word: &OsStr,
    ) -> Result<(), Failure> {
        let expected = match operand {
            Some(_) if self.operand.is_none() => {
                self.operand = Some(word.to_owned());
                return Ok(());
            }
            Some(operand) => operand.expected(),
            None if known.is_empty() => "nothing behind the command",
            None => "an option; a value with spaces in it stands in quotes",
        };
        let word = shown(word);
        Err(Failure::Usage(format!("`{word}`: expected {expected}")))
    }

    /// Whether a flag was given.
    pub fn has(&self, flag: &Known) -> bool {
        self.value(flag).is_some()
    }

    /// The value of an option, if it was given.
    fn value(&self, option: &Known) -> Option<&OsStr> {
        let given = self.values.iter().find(|(name, _)| *name == option.name)?;
        Some(&given.1)
    }

    /// The same as text.
    fn text(&self, option: &Known) -> Option<Cow<'_, str>> {
        self.value(option).map(OsStr::to_string_lossy)
    }

    /// The value of an option that must be given, as text.
    pub fn needed(&self, option: &Known) -> Result<Cow<'_, str>, Failure> {
        self.needed_file(option).map(OsStr::to_string_lossy)
    }

    /// The file that an option names, which must be given.
    pub fn needed_file(&self, option: &Known) -> Result<&OsStr, Failure> {
        let missing = || wrong(&format!("{} is missing", option.name), option);
        self.value(option).ok_or_else(missing)
    }

    /// A number of up to `bits` bits, decimal or hexadecimal.
    pub fn number(&self, option: &Known, bits: u32) -> Result<u64, Failure> {
        let value = number(&self.needed(option)?, bits);
        value.ok_or_else(|| wrong(&self.given(option), option))
    }

    /// The same of an option that may be left out, and is then 0.
    pub fn number_or_0(&self, option: &Known, bits: u32) -> Result<u64, Failure> {
        match self.value(option) {
            Some(_) => self.number(option, bits),
            None => Ok(0),
        }
    }

    /// A and E.
    pub fn sizes(&self) -> Result<(u64, u64), Failure> {
        Ok((self.number(&SIZE, 64)?, self.length()?))
    }

    /// E, which either of two options gives.
    fn length(&self) -> Result<u64, Failure> {
        match (self.value(&LENGTH), self.value(&LEVEL)) {
            (Some(_), None) => self.number(&LENGTH, 64),
            (None, Some(_)) => self.choice(&LEVEL, &LEVELS),
            (Some(_), Some(_)) => Err(Failure::Usage(
                "--length and --level are both given: expected one of them".into(),
            )),
            (None, None) => Err(Failure::Usage(format!(
                "--length is missing: expected {}; or --level with {}",
                LENGTH.expected(),
                LEVEL.expected()
            ))),
        }
    }

    /// The option that E came of, as it was given.
    pub fn given_length(&self) -> String {
        let by_level = self.value(&LEVEL).is_some();
        self.given(if by_level { &LEVEL } else { &LENGTH })
    }

    /// An option as it was given.
    fn given(&self, option: &Known) -> String {
        let value = shown(self.value(option).unwrap_or_default());
        format!("{} {value}", option.name)
    }

    /// The five numbers of a call.
    pub fn numbers(&self) -> Result<Numbers, Failure> {
        let (a, e) = self.sizes()?;
        let rnti = self.number(&RNTI, 16)? as u16;
        let n_id = self.number(&ID, 16)? as u16;
        let n_rnti = self.number_or_0(&N_RNTI, 16)? as u16;
        Ok(Numbers {
            a,
            e,
            rnti,
            n_id,
            n_rnti,
        })
    }

    /// One of several words; the first if the option is not given.
    pub fn choice<T: Copy>(&self, option: &Known, choices: &[(&str, T)]) -> Result<T, Failure> {
        let Some(text) = self.text(option) else {
            return Ok(choices[0].1);
        };
        match choices.iter().find(|(word, _)| *word == text) {
            Some(&(_, choice)) => Ok(choice),
            None => Err(wrong(&self.given(option), option)),
        }
    }
}

/// The name of an option, and what stands behind = in the same word.
fn split(word: &OsStr) -> (Cow<'_, str>, Option<OsString>) {
    let mut parts = word.as_bytes().splitn(2, |byte| *byte == b'=');
    let mut part = || parts.next().map(OsStr::from_bytes);
    let name = part().unwrap_or_default().to_string_lossy();
    (name, part().map(OsStr::to_owned))
}

/// A complaint that names the option and what was expected.
fn wrong(subject: &str, option: &Known) -> Failure {
    Failure::Usage(format!("{subject}: expected {}", option.expected()))
}

fn unknown(name: &str, known: &[&Known]) -> Failure {
    let name = shown(name);
    let names: Vec<&str> = known.iter().map(|option| option.name).collect();
    Failure::Usage(match names.as_slice() {
        [] => format!("{name} is not an option: this command takes none"),
        names => format!("{name} is not an option: expected {}", names.join(", ")),
    })
}
