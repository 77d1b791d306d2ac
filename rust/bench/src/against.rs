//! Another archive beside the one of this tree, such as that of an earlier commit.
//!
//! Both are made shared objects in the same way and loaded, so that neither gains by where its code
//! comes to stand in the program. The other one may have the interface of the versions up to 0.2.0,
//! without n_RNTI; the n_RNTI of all messages is 0. Up to 0.3.0 there is no noise count, so that the
//! numbers and the bits alone are compared.

use crate::contestants::{Contestants, Given, call, said, to_code, to_decode, to_refuse};
use crate::{Make, lines, timed_lines};
use conformance::built::archive;
use conformance::library::Plain;
use speltfeather::Numbers;
use std::env;
use std::ffi::{CString, c_char, c_int, c_void};
use std::fs;
use std::mem::transmute;
use std::os::unix::ffi::OsStrExt;
use std::path::{Path, PathBuf};
use std::process::{self, Command};
use std::sync::OnceLock;

unsafe extern "C" {
    fn dlopen(file: *const c_char, flags: c_int) -> *mut c_void;
    fn dlsym(handle: *mut c_void, name: *const c_char) -> *mut c_void;
}

/// All of it now, and its names for this handle alone.
const RTLD_NOW: c_int = 2;

/// A call as the versions up to 0.2.0 have it, without n_RNTI.
type Short<T> = unsafe extern "C" fn(u64, u64, u16, u16, *const T, usize, *mut u8, usize) -> u64;

/// A call of an archive.
enum Loaded<T> {
    Whole(Plain<T>),
    Short(Short<T>),
}

impl<T> Loaded<T> {
    /// # Safety
    /// The symbol must be a call on a `T`, with n_RNTI or without as is said.
    unsafe fn of(symbol: *mut c_void, n_rnti: bool) -> Self {
        // SAFETY: as is asked of the caller.
        unsafe {
            match n_rnti {
                true => Self::Whole(transmute::<*mut c_void, Plain<T>>(symbol)),
                false => Self::Short(transmute::<*mut c_void, Short<T>>(symbol)),
            }
        }
    }

    /// Makes a call; its noise count is left out.
    fn call(&self, numbers: &Numbers, input: &[T], out: &mut [u8]) -> Given {
        let Numbers {
            a, e, rnti, n_id, ..
        } = *numbers;
        let (from, from_len) = (input.as_ptr(), input.len());
        let given = match self {
            Self::Whole(whole) => call(*whole, numbers, input, out),
            Self::Short(short) => {
                // SAFETY: the pointers come from two slices and stand with their lengths.
                let answer = unsafe {
                    short(
                        a,
                        e,
                        rnti,
                        n_id,
                        from,
                        from_len,
                        out.as_mut_ptr(),
                        out.len(),
                    )
                };
                said(answer)
            }
        };
        given.map(|_| 0)
    }
}

/// The calls of an archive.
struct Calls {
    encode: Loaded<u8>,
    decode: Loaded<i32>,
}

static BEFORE: OnceLock<Calls> = OnceLock::new();
static NOW: OnceLock<Calls> = OnceLock::new();

fn of(calls: &'static OnceLock<Calls>) -> &'static Calls {
    calls.get().expect("loaded at the start")
}

const CODERS: Contestants<u8, 2> = [
    |numbers, payload, out| of(&BEFORE).encode.call(numbers, payload, out),
    |numbers, payload, out| of(&NOW).encode.call(numbers, payload, out),
];

const DECODERS: Contestants<i32, 2> = [
    |numbers, soft, out| of(&BEFORE).decode.call(numbers, soft, out),
    |numbers, soft, out| of(&NOW).decode.call(numbers, soft, out),
];

/// Prints the times of the archive `before` and of this tree's.
pub fn print(before: &Path) {
    BEFORE.get_or_init(|| loaded(before, "before"));
    NOW.get_or_init(|| loaded(&archive(), "now"));
    print_table("Coding", &CODERS, |a, e, random| {
        to_code(random.common_numbers(a, e), random)
    });
    print_table("Decoding", &DECODERS, |a, e, random| {
        to_decode(random.common_numbers(a, e), random)
    });
    print_table("Decoding for another RNTI: 7", &DECODERS, |a, e, random| {
        to_refuse(random.common_numbers(a, e), random)
    });
}

fn print_table<T>(title: &str, contestants: &Contestants<T, 2>, make: Make<T>) {
    let lines = timed_lines(contestants, lines(contestants, make));
    println!("\n### {title}\n");
    println!("|   A |    E | before, ns | now, ns | now : before |");
    println!("|----:|-----:|------:|------:|-----:|");
    for line in &lines {
        let ([before, now], a, e) = (line.times, line.a, line.e);
        let ratio = now / before;
        println!("| {a:>3} | {e:>4} | {before:>6.0} | {now:>6.0} | {ratio:>5.2} |");
    }
}

/// The calls of an archive, as a shared object of that name.
fn loaded(archive: &Path, name: &str) -> Calls {
    let object = shared(archive, name);
    let file = CString::new(object.as_os_str().as_bytes()).expect("a path has no 0");
    // SAFETY: the object has no code that runs when it is loaded.
    let handle = unsafe { dlopen(file.as_ptr(), RTLD_NOW) };
    assert!(!handle.is_null(), "{} cannot be loaded", object.display());
    fs::remove_file(&object).expect("what was made can be removed");
    let symbol = |name: &str| {
        let text = CString::new(name).expect("a name has no 0");
        // SAFETY: the handle is that of the object.
        let found = unsafe { dlsym(handle, text.as_ptr()) };
        assert!(!found.is_null(), "{} has no {name}", archive.display());
        found
    };
    let (encode, decode) = (symbol("spelt_encode"), symbol("spelt_decode"));
    // SAFETY: the header declares the calls so, but for n_RNTI, of which the first says whether it is
    // there.
    unsafe {
        let n_rnti = has_n_rnti(transmute::<*mut c_void, Plain<u8>>(encode));
        Calls {
            encode: Loaded::of(encode, n_rnti),
            decode: Loaded::of(decode, n_rnti),
        }
    }
}

/// Whether an archive's calls have n_RNTI. One without it takes the payload's address for its length,
/// and answers 4 before it reads or writes anything.
fn has_n_rnti(encode: Plain<u8>) -> bool {
    let (payload, mut out) = ([0; 12], [0; 108]);
    // SAFETY: as the header asks; else what the C calling conventions make of one parameter too many.
    let answer = unsafe {
        encode(
            12,
            108,
            0,
            0,
            0,
            payload.as_ptr(),
            12,
            out.as_mut_ptr(),
            108,
        )
    };
    assert!(answer == 0 || answer == 4, "an accepted call gave {answer}");
    answer == 0
}

fn shared(archive: &Path, name: &str) -> PathBuf {
    let object = env::temp_dir().join(format!("speltfeather-{}-{name}.so", process::id()));
    let status = Command::new("cc")
        .args(["-shared", "-Wl,--whole-archive"])
        .arg(archive)
        .args(["-Wl,--no-whole-archive", "-o"])
        .arg(&object)
        .status()
        .expect("cc can be run");
    assert!(status.success(), "cc fails on {}", archive.display());
    object
}
