//! What the documents name is there: crates, functions, laws, files, edits, tests, targets, links.
//! The picture of the crates is drawn from crates.txt; where it differs, the message has the text to
//! paste.

use conformance::built::root;
use conformance::documents::{Table, block, documents, files, quoted, tables, text};
use std::collections::{BTreeMap, BTreeSet};
use std::path::PathBuf;

/// A crate and the crates that it depends on, in the order of crates.txt.
type Crates = Vec<(String, Vec<String>)>;

fn crates() -> Crates {
    let entry = |line: &str| {
        let (head, rest) = line.split_once(':').expect("a crate and what it needs");
        // Behind the name may stand what is built of the crate, as `staticlib`.
        let name = head.split_whitespace().next().expect("the crate's name");
        let needs = rest.split_whitespace().map(str::to_string).collect();
        (name.to_string(), needs)
    };
    text("crates.txt").lines().map(entry).collect()
}

fn names(crates: &Crates) -> BTreeSet<String> {
    crates.iter().map(|(name, _)| name.clone()).collect()
}

/// The level of each crate: one above the highest that it depends on.
fn levels(crates: &Crates) -> BTreeMap<&str, usize> {
    let mut levels = BTreeMap::new();
    for (name, needs) in crates {
        let level = needs.iter().map(|need| levels[need.as_str()] + 1).max();
        levels.insert(name.as_str(), level.unwrap_or(0));
    }
    levels
}

/// What each crate leans on: what it depends on, without what these depend on in turn.
fn leanings(crates: &Crates) -> BTreeMap<&str, Vec<&str>> {
    let mut below: BTreeMap<&str, BTreeSet<&str>> = BTreeMap::new();
    let mut leanings = BTreeMap::new();
    for (name, needs) in crates {
        let needs: Vec<&str> = needs.iter().map(String::as_str).collect();
        let further: BTreeSet<&str> = needs.iter().flat_map(|need| below[need].clone()).collect();
        let mut leaning = needs.clone();
        leaning.retain(|need| !further.contains(need));
        leanings.insert(name.as_str(), leaning);
        below.insert(name, further.into_iter().chain(needs).collect());
    }
    leanings
}

/// The crates by levels, the highest first; those that lean on the same stand in one line.
fn picture(crates: &Crates) -> String {
    let (levels, leanings) = (levels(crates), leanings(crates));
    let mut drawn = String::new();
    for level in (0..=*levels.values().max().expect("a crate")).rev() {
        let mut lines: Vec<(Vec<&str>, &Vec<&str>)> = Vec::new();
        for (name, _) in crates
            .iter()
            .filter(|(name, _)| levels[name.as_str()] == level)
        {
            let leaning = &leanings[name.as_str()];
            match lines.iter_mut().find(|(_, other)| *other == leaning) {
                Some((together, _)) => together.push(name),
                None => lines.push((vec![name], leaning)),
            }
        }
        for (place, (together, leaning)) in lines.iter().enumerate() {
            let head = if place == 0 {
                level.to_string()
            } else {
                String::new()
            };
            let arrow = if leaning.is_empty() {
                ""
            } else {
                " ──▶ "
            };
            let (together, leaning) = (together.join(", "), leaning.join(", "));
            drawn += &format!("{head:>2}  {together}{arrow}{leaning}\n");
        }
    }
    drawn
}

/// The one table of a document whose columns include these.
fn table(path: &str, columns: &[&str]) -> Table {
    let fits = |table: &Table| columns.iter().all(|&head| table.column(head).is_some());
    let mut found: Vec<Table> = tables(&text(path)).into_iter().filter(fits).collect();
    assert_eq!(found.len(), 1, "{path}: tables with {columns:?}");
    found.remove(0)
}

/// A column's cells of a table that has it.
fn column<'a>(table: &'a Table, head: &str) -> impl Iterator<Item = &'a str> {
    let place = table.column(head).expect("the column");
    table.rows.iter().map(move |row| row[place].as_str())
}

fn assert_none(what: &str, wrong: &[String]) {
    assert!(wrong.is_empty(), "{what}:\n{}", wrong.join("\n"));
}

/// Two lists must name the same, and each of them once.
fn assert_same<T: Ord + Clone + std::fmt::Debug>(what: &str, named: &[T], there: &BTreeSet<T>) {
    let once: BTreeSet<T> = named.iter().cloned().collect();
    let left_out: Vec<&T> = there.difference(&once).collect();
    let not_there: Vec<&T> = once.difference(there).collect();
    assert!(
        left_out.is_empty() && not_there.is_empty(),
        "{what}: left out {left_out:?}, named and not there {not_there:?}"
    );
    assert_eq!(named.len(), once.len(), "{what}: named twice in {named:?}");
}

#[test]
fn picture_is_drawn_from_crates_txt() {
    let drawn = picture(&crates());
    let architecture = text("docs/ARCHITECTURE.md");
    let shown = block(&architecture, "## The crates");
    assert!(shown == drawn, "docs/ARCHITECTURE.md should have:\n{drawn}");
}

#[test]
fn tables_of_crates_have_each_once() {
    let table = table("docs/ARCHITECTURE.md", &["crate", "standard"]);
    let named: Vec<String> = column(&table, "crate")
        .flat_map(quoted)
        .map(str::to_string)
        .collect();
    assert_same("docs/ARCHITECTURE.md", &named, &names(&crates()));
}

/// The functions and methods of a crate's sources.
fn functions(name: &str) -> Vec<String> {
    let sources = files(format!("crates/{name}/src"), ".rt");
    let sources: Vec<String> = sources.iter().map(text).collect();
    let name_of = |line: &str| {
        let (before, rest) = line.trim_start().split_once("fn ")?;
        let modifiers = ["", "pub ", "pub extern \"C\" "];
        let name = rest.split_once(['(', '<'])?.0.to_string();
        modifiers.contains(&before).then_some(name)
    };
    let lines = sources.iter().flat_map(|source| source.lines());
    lines.filter_map(name_of).collect()
}

#[test]
fn table_of_functions_has_each_once() {
    let table = table("docs/PROOFS.md", &["function", "crate"]);
    let mut named = Vec::new();
    for (functions, name) in column(&table, "function").zip(column(&table, "crate")) {
        named.extend(quoted(functions).iter().map(|f| format!("{name}::{f}")));
    }
    let of = |name: &String| {
        let functions = functions(name).into_iter();
        functions
            .map(|f| format!("{name}::{f}"))
            .collect::<Vec<_>>()
    };
    let there: BTreeSet<String> = names(&crates()).iter().flat_map(of).collect();
    assert!(there.len() > 50, "functions are found: {there:?}");
    assert_same("docs/PROOFS.md", &named, &there);
}

/// Whether a file of proofs or specs states this name.
fn states(source: &str, name: &str) -> bool {
    source.lines().any(|line| {
        let mut words = line.split_whitespace().peekable();
        let mut record = false;
        while let Some(word) =
            words.next_if(|word| ["pub", "abbrev", "unfoldable", "record"].contains(word))
        {
            record |= word == "record";
        }
        words.next() == Some(name) && (record || words.next() == Some(":"))
    })
}

/// The file that a cell names: in nr's proofs or specs, or by its whole place.
fn proof_file(named: &str) -> PathBuf {
    match named.split('/').next() {
        Some("crates") => named.into(),
        Some("specs") => format!("crates/nr/{named}").into(),
        _ => format!("crates/nr/proofs/{named}").into(),
    }
}

#[test]
fn laws_stand_where_the_tables_say() {
    let tables = tables(&text("docs/PROOFS.md")).into_iter();
    let tables = tables.filter(|t| t.column("name").is_some() && t.column("file").is_some());
    let (mut wrong, mut looked_up) = (Vec::new(), 0);
    for table in tables {
        for (names, file) in column(&table, "name").zip(column(&table, "file")) {
            let path = proof_file(file);
            let is_file = !file.is_empty() && root().join(&path).is_file();
            let source = if is_file { text(&path) } else { String::new() };
            for name in quoted(names) {
                looked_up += 1;
                if !states(&source, name) {
                    wrong.push(format!("{name} in {file}"));
                }
            }
        }
    }
    assert!(looked_up > 100, "names are found: {looked_up}");
    assert_none("docs/PROOFS.md names what is not there", &wrong);
}

/// Words of a text, with what stands around them taken off.
fn words(text: &str) -> impl Iterator<Item = &str> {
    let around = |c: char| c.is_whitespace() || "`|(),;:*\"".contains(c);
    text.split(around).map(|word| word.trim_end_matches('.'))
}

#[test]
fn files_of_proofs_that_are_named_exist() {
    let there = files("crates", ".antt");
    let mut wrong = Vec::new();
    for document in documents() {
        let named = words(&document.text).filter(|word| word.ends_with(".antt"));
        for word in named.filter(|word| *word != ".antt") {
            if !there.iter().any(|path| path.ends_with(word)) {
                wrong.push(format!("{}: {word}", document.path.display()));
            }
        }
    }
    assert_none("files that do not exist", &wrong);
}

#[test]
fn places_in_the_repository_that_are_named_exist() {
    let starts = ["crates/", "rust/", "docs/", "include/", "examples/"];
    let mut wrong = Vec::new();
    for document in documents() {
        for place in quoted(&document.text) {
            let named = starts.iter().any(|start| place.starts_with(start));
            let made = place.starts_with("rust/target/") || place.contains(['*', ' ']);
            if named && !made && !root().join(place).exists() {
                wrong.push(format!("{}: {place}", document.path.display()));
            }
        }
    }
    assert_none("places that do not exist", &wrong);
}

#[test]
fn links_lead_somewhere() {
    let (mut wrong, mut followed) = (Vec::new(), 0);
    for document in documents() {
        let from = root().join(&document.path);
        for rest in document.text.split("](").skip(1) {
            let target = rest.split(')').next().unwrap_or_default();
            let file = target.split('#').next().unwrap_or_default();
            followed += 1;
            if !target.starts_with("https://") && !from.with_file_name(file).exists() {
                wrong.push(format!("{}: {target}", document.path.display()));
            }
        }
    }
    assert!(followed > 20, "links are found: {followed}");
    assert_none("links that lead nowhere", &wrong);
}

#[test]
fn edits_that_are_named_exist() {
    let table = table("docs/PROOFS.md", &["slip", "edit"]);
    let mut wrong = Vec::new();
    for cell in column(&table, "edit") {
        let mut last = "";
        for named in quoted(cell) {
            // Without a crate, it is that of the one before.
            let (name, edit) = named.split_once('/').unwrap_or((last, named));
            let path = format!("crates/{name}/must-fail/{edit}.edit");
            if !root().join(&path).is_file() {
                wrong.push(path);
            }
            last = name;
        }
    }
    assert_none("edits that do not exist", &wrong);
}

#[test]
fn table_of_tests_has_each_file() {
    let head = "file of `rust/tests/tests`";
    let table = table("docs/PROOFS.md", &[head]);
    let named: Vec<PathBuf> = column(&table, head)
        .flat_map(|cell| cell.split(", "))
        .map(|name| format!("rust/tests/tests/{name}").into())
        .collect();
    let there = files("rust/tests/tests", ".rs").into_iter().collect();
    assert_same("docs/PROOFS.md", &named, &there);
}

#[test]
fn packages_outside_rattle_are_listed() {
    let architecture = text("docs/ARCHITECTURE.md");
    let tables = tables(&architecture);
    let cells = tables
        .iter()
        .flat_map(|table| &table.rows)
        .map(|row| &row[0]);
    let named: Vec<String> = cells
        .flat_map(|cell| quoted(cell))
        .filter_map(|name| name.strip_prefix("rust/"))
        .map(str::to_string)
        .collect();
    let manifest = text("rust/Cargo.toml");
    let members = manifest.lines().find(|line| line.starts_with("members"));
    let members = members.expect("members").split('"').skip(1).step_by(2);
    let there = members.map(str::to_string).collect();
    assert_same("docs/ARCHITECTURE.md", &named, &there);
}

#[test]
fn targets_of_make_that_are_named_exist() {
    let makefile = text("Makefile");
    let (mut wrong, mut looked_up) = (Vec::new(), 0);
    for document in documents() {
        let lines = document.text.lines().chain(quoted(&document.text));
        for command in lines.filter_map(|line| line.strip_prefix("make ")) {
            let target = command.split([' ', '\n']).next().unwrap_or_default();
            looked_up += 1;
            let rule = format!("\n{target}:");
            if !makefile.contains(&rule) {
                wrong.push(format!("{}: make {target}", document.path.display()));
            }
        }
    }
    assert!(looked_up > 20, "targets are found: {looked_up}");
    assert_none("targets that the Makefile does not have", &wrong);
}

#[test]
fn papers_that_are_cited_are_introduced() {
    let sources = text("docs/SOURCES.md");
    let mut wrong = Vec::new();
    for document in documents() {
        let path = document.path.display();
        let lower = document.text.to_lowercase();
        let papers = lower
            .split("document 0")
            .skip(1)
            .map(|rest| ("paper", rest));
        let texts = lower.split("source 0").skip(1).map(|rest| ("source", rest));
        let mut cites = false;
        for (kind, rest) in papers.chain(texts) {
            let digits: String = rest.chars().take_while(char::is_ascii_digit).collect();
            let introduced = match kind {
                "paper" => format!("**Document 0{digits}**"),
                _ => format!("\n| 0{digits} |"),
            };
            cites = true;
            if !sources.contains(&introduced) {
                wrong.push(format!("{path}: {kind} 0{digits}"));
            }
        }
        if cites && !document.path.ends_with("SOURCES.md") && !lower.contains("sources.md)") {
            wrong.push(format!("{path} does not lead to SOURCES.md"));
        }
    }
    assert_none("cited and not introduced", &wrong);
}

#[test]
fn sizes_and_versions_are_those_of_the_code() {
    let readme = text("README.md");
    let sizes = reference::PAYLOAD_SIZES;
    let lengths = reference::CODED_LENGTHS.map(|e| e.to_string()).join(", ");
    let limits = [
        format!("{} to {} bits", sizes.start(), sizes.end()),
        lengths,
        format!("cargo ({} or later)", env!("CARGO_PKG_RUST_VERSION")),
    ];
    for limit in limits {
        assert!(readme.contains(&limit), "README.md: {limit}");
    }
    let changelog = text("CHANGELOG.md");
    let newest = changelog.lines().find_map(|line| line.strip_prefix("## "));
    assert_eq!(newest, Some(env!("CARGO_PKG_VERSION")), "CHANGELOG.md");
}
