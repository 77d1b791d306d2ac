//! The line on the terminal that says how far the work is.

use std::io::{IsTerminal, Write, stderr};
use std::time::{Duration, Instant};

const PAUSE: Duration = Duration::from_millis(100);

/// Where the work tells how far it is.
pub enum Progress {
    /// One line, rewritten in place. It was last rewritten at this time.
    Terminal(Option<Instant>),
    /// A line for each step that is done.
    Lines,
    Nowhere,
}

impl Progress {
    pub fn on_stderr() -> Self {
        match stderr().is_terminal() {
            true => Self::Terminal(None),
            false => Self::Lines,
        }
    }

    /// Shows how far a step is; not more often than can be read.
    pub fn show(&mut self, text: impl FnOnce() -> String) {
        if let Self::Terminal(last) = self {
            if last.is_none_or(|at| at.elapsed() >= PAUSE) {
                rewrite(&text());
                *last = Some(Instant::now());
            }
        }
    }

    /// Tells of a step that is done.
    pub fn done(&mut self, text: impl FnOnce() -> String) {
        match self {
            Self::Lines => eprintln!("{}", text()),
            _ => self.show(text),
        }
    }

    /// Takes the line away.
    pub fn clear(&self) {
        if let Self::Terminal(Some(_)) = self {
            rewrite("");
        }
    }
}

fn rewrite(text: &str) {
    eprint!("\r{text}\x1b[K");
    // A line that cannot be shown is no reason to stop.
    let _ = stderr().flush();
}
