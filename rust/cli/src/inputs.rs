//! The texts that commands read: of a file, or of standard input.

use crate::failure::Failure;
use crate::{streams, text};
use std::ffi::OsStr;
use std::fs::File;
use std::io::{self, IsTerminal, Read};

/// As many bytes of text are read and no more: 64 CCEs of soft values with many comments are less,
/// and an input that never ends comes to an end.
const MOST: u64 = 1 << 20;

/// A text, and what an error calls the place that it came from.
pub struct Input {
    pub source: String,
    pub text: String,
}

/// Whether what was given for a file stands for standard input.
pub fn is_standard(file: Option<&OsStr>) -> bool {
    file.is_none_or(|file| file == "-")
}

/// The text of a file, or of standard input. `what` should stand in it, and `command` asks for it.
///
/// # Errors
/// It cannot be read, or it is too long.
pub fn read(file: Option<&OsStr>, what: &str, command: &str) -> Result<Input, Failure> {
    let (source, input) = match file.filter(|file| !is_standard(Some(file))) {
        Some(path) => (text::shown(path), File::open(path)),
        None => ("standard input".into(), standard_input(what, command)),
    };
    let bytes = input
        .and_then(read_bounded)
        .map_err(|error| Failure::File(format!("{source}: expected a file of {what}: {error}")))?;
    let text = String::from_utf8_lossy(&bytes).into_owned();
    Ok(Input { source, text })
}

fn standard_input(what: &str, command: &str) -> io::Result<File> {
    let input = io::stdin();
    if input.is_terminal() {
        streams::say(&format!(
            "dci {command}: reading {what} from the keyboard; end them with Ctrl-D"
        ));
    }
    streams::file(&input)
}

fn read_bounded(input: File) -> io::Result<Vec<u8>> {
    let mut bytes = Vec::new();
    input.take(MOST + 1).read_to_end(&mut bytes)?;
    match bytes.len() as u64 > MOST {
        true => Err(io::Error::other(format!("it has more than {MOST} bytes"))),
        false => Ok(bytes),
    }
}
