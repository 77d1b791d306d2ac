//! The standard streams as they were handed over.
//!
//! Rust opens `/dev/null` in place of a standard stream that is closed, and takes a stream that was
//! opened the wrong way for one that is: what is written there would seem to arrive. So whether a
//! stream is closed is asked before Rust starts, and the streams are used as files.

use std::ffi::c_int;
use std::fs::File;
use std::io::{self, Write};
use std::os::fd::{AsFd, AsRawFd};
use std::sync::atomic::{AtomicBool, Ordering};

unsafe extern "C" {
    fn fcntl(fd: c_int, command: c_int, ...) -> c_int;
}

/// The command of `fcntl` that fails on a closed descriptor and does nothing to an open one.
const F_GETFD: c_int = 1;

/// Whether standard input, output and error were closed.
static CLOSED: [AtomicBool; 3] = [const { AtomicBool::new(false) }; 3];

// SAFETY: what stands in this section is called once before `main`, and `look` needs nothing that is
// set up later.
#[used]
#[unsafe(link_section = ".init_array")]
static AT_START: extern "C" fn() = look;

extern "C" fn look() {
    for (fd, closed) in (0..).zip(&CLOSED) {
        // SAFETY: with this command `fcntl` takes no further argument and uses no memory.
        let answer = unsafe { fcntl(fd, F_GETFD) };
        closed.store(answer < 0, Ordering::Relaxed);
    }
}

/// A standard stream as a file.
///
/// # Errors
/// The stream was closed, or no further file can be opened.
pub fn file(stream: &(impl AsFd + AsRawFd)) -> io::Result<File> {
    if CLOSED[stream.as_raw_fd() as usize].load(Ordering::Relaxed) {
        return Err(io::Error::other("it is closed"));
    }
    Ok(stream.as_fd().try_clone_to_owned()?.into())
}

/// Writes a line to standard error. If it does not arrive there is no one left to tell, and the exit
/// status says what it would have said.
pub fn say(line: &str) {
    let _ = writeln!(io::stderr(), "{line}");
}
