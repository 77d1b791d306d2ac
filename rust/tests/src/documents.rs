//! Documents in Markdown, as far as tests read them.

use crate::built::root;
use std::fs;
use std::path::{Path, PathBuf};

/// A document with its place below the root of the repository.
pub struct Document {
    pub path: PathBuf,
    pub text: String,
}

/// The text of a file, by its place below the root.
pub fn text(path: impl AsRef<Path>) -> String {
    let path = root().join(path);
    fs::read_to_string(&path).unwrap_or_else(|error| panic!("{}: {error}", path.display()))
}

/// The files of a directory and of those in it whose names end so, by their places below the root.
pub fn files(directory: impl AsRef<Path>, ending: &str) -> Vec<PathBuf> {
    let mut found = Vec::new();
    for entry in fs::read_dir(root().join(&directory)).expect("a directory") {
        let name = entry.expect("an entry").file_name();
        let path = directory.as_ref().join(&name);
        if name == "out" {
            // What rt makes of a crate.
        } else if root().join(&path).is_dir() {
            found.extend(files(path, ending));
        } else if name.to_string_lossy().ends_with(ending) {
            found.push(path);
        }
    }
    found.sort();
    found
}

/// README, the changelog and the pages of docs.
pub fn documents() -> Vec<Document> {
    let mut paths = files("docs", ".md");
    paths.extend(["README.md", "CHANGELOG.md"].map(PathBuf::from));
    let read = |path: PathBuf| Document {
        text: text(&path),
        path,
    };
    paths.into_iter().map(read).collect()
}

/// What stands between backticks.
pub fn quoted(text: &str) -> Vec<&str> {
    text.split('`').skip(1).step_by(2).collect()
}

/// The first block of code behind a heading.
pub fn block<'a>(text: &'a str, heading: &str) -> &'a str {
    let (_, section) = text.split_once(heading).expect("the heading");
    let (_, block) = section.split_once("```\n").expect("a block");
    block.split_once("```").expect("its end").0
}

/// A table: the words of its head, and the cells of its rows.
pub struct Table {
    pub head: Vec<String>,
    pub rows: Vec<Vec<String>>,
}

impl Table {
    /// The place of the column with this head.
    pub fn column(&self, head: &str) -> Option<usize> {
        self.head.iter().position(|cell| cell == head)
    }
}

fn cells(line: &str) -> Vec<String> {
    let inner = line.trim_matches('|');
    inner.split('|').map(|cell| cell.trim().into()).collect()
}

/// All tables of a document.
pub fn tables(text: &str) -> Vec<Table> {
    let mut tables: Vec<Table> = Vec::new();
    let mut inside = false;
    for line in text.lines() {
        match (line.starts_with('|'), inside) {
            (true, false) => tables.push(Table {
                head: cells(line),
                rows: Vec::new(),
            }),
            (true, true) if !line.starts_with("|---") => {
                let table = tables.last_mut().expect("a table that was begun");
                table.rows.push(cells(line));
            }
            _ => {}
        }
        inside = line.starts_with('|');
    }
    tables
}
