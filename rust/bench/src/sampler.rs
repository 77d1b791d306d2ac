//! Where the time goes inside the archive: a timer interrupts the calls, and the place where each
//! interruption fell is looked up among the archive's functions. For Linux on x86-64.

use std::ffi::c_void;
use std::ops::Range;
use std::process::Command;
use std::ptr;
use std::sync::atomic::{AtomicU64, AtomicUsize, Ordering};

/// Microseconds between interruptions.
const INTERVAL: i64 = 97;
const ROOM: usize = 1 << 16;

static TAKEN: AtomicUsize = AtomicUsize::new(0);
static PLACES: [AtomicU64; ROOM] = [const { AtomicU64::new(0) }; ROOM];

const SIGALRM: i32 = 14;
const ITIMER_REAL: i32 = 0;
const SA_SIGINFO_AND_RESTART: i32 = 0x1000_0004;
/// Where the C library keeps the instruction pointer in what it hands a signal handler.
const INSTRUCTION_POINTER: usize = 168;

#[repr(C)]
struct Action {
    handler: extern "C" fn(i32, *mut c_void, *mut c_void),
    mask: [u64; 16],
    flags: i32,
    restorer: usize,
}

/// Interval and first delay, each in seconds and microseconds.
#[repr(C)]
struct Timer([i64; 4]);

unsafe extern "C" {
    fn sigaction(signal: i32, new: *const Action, old: *mut c_void) -> i32;
    fn setitimer(which: i32, new: *const Timer, old: *mut c_void) -> i32;
    fn spelt_encode();
}

extern "C" fn note(_signal: i32, _info: *mut c_void, context: *mut c_void) {
    let i = TAKEN.fetch_add(1, Ordering::Relaxed);
    if i < ROOM {
        // SAFETY: the kernel hands over a context of this layout on x86-64.
        let place = unsafe { context.byte_add(INSTRUCTION_POINTER).cast::<u64>().read() };
        PLACES[i].store(place, Ordering::Relaxed);
    }
}

fn interrupt_every(microseconds: i64) {
    let timer = Timer([0, microseconds, 0, microseconds]);
    // SAFETY: the timer has the C library's layout and outlives the call.
    let answer = unsafe { setitimer(ITIMER_REAL, &timer, ptr::null_mut()) };
    assert_eq!(answer, 0, "setitimer");
}

/// The places at which `work` was interrupted.
fn interrupted(work: impl FnOnce()) -> Vec<u64> {
    let action = Action {
        handler: note,
        mask: [0; 16],
        flags: SA_SIGINFO_AND_RESTART,
        restorer: 0,
    };
    // SAFETY: the action has the C library's layout, and its handler touches atomics alone.
    let answer = unsafe { sigaction(SIGALRM, &action, ptr::null_mut()) };
    assert_eq!(answer, 0, "sigaction");
    TAKEN.store(0, Ordering::Relaxed);
    interrupt_every(INTERVAL);
    work();
    interrupt_every(0);
    let taken = TAKEN.load(Ordering::Relaxed).min(ROOM);
    let places = PLACES[..taken].iter();
    places.map(|place| place.load(Ordering::Relaxed)).collect()
}

/// Where the functions of each crate lie in memory, found by `nm` in this program's own file. What
/// the compiler has put into a caller lies there.
fn functions<const N: usize>(crates: [&str; N]) -> [Vec<Range<u64>>; N] {
    let own = std::env::current_exe().expect("this program has a file");
    let mut nm = Command::new("nm");
    let listed = nm.args(["-S", "--defined-only"]).arg(own).output();
    let listed = listed.expect("nm can be run").stdout;
    let listed = String::from_utf8_lossy(&listed);
    let symbols: Vec<(&str, u64, u64)> = listed.lines().filter_map(symbol).collect();
    let start_of = |name| symbols.iter().find(|symbol| symbol.0 == name);
    let (_, start, _) = start_of("spelt_encode").expect("the archive is linked");
    let moved = spelt_encode as *const () as u64 - start;
    crates.map(|name| {
        let inside = symbols.iter().filter(|symbol| symbol.0.starts_with(name));
        let ranges = inside.map(|(_, start, size)| start + moved..start + moved + size);
        let ranges: Vec<Range<u64>> = ranges.collect();
        assert!(!ranges.is_empty(), "nm lists nothing of {name}");
        ranges
    })
}

/// A line of `nm -S`: address, size, letter, name.
fn symbol(line: &str) -> Option<(&str, u64, u64)> {
    let mut words = line.splitn(4, ' ');
    let address = u64::from_str_radix(words.next()?, 16).ok()?;
    let size = u64::from_str_radix(words.next()?, 16).ok()?;
    let name = words.nth(1)?;
    Some((name, address, size))
}

/// The part of the time that was spent in the functions of each of these crates.
pub fn shares<const N: usize>(crates: [&str; N], work: impl FnOnce()) -> [f64; N] {
    let places = interrupted(work);
    functions(crates).map(|functions| {
        let inside = |place: &&u64| functions.iter().any(|function| function.contains(place));
        places.iter().filter(inside).count() as f64 / places.len() as f64
    })
}
