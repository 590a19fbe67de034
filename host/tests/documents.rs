//! That the documents name what is there: files, must-fail edits and functions, as they stand between back quotes.

use std::fs;
use std::path::{Path, PathBuf};

const FOLDERS: [&str; 7] = [
    "crates/",
    "docs/",
    "example/",
    "host/",
    "include/",
    "packaging/",
    "scripts/",
];

fn project() -> PathBuf {
    Path::new(env!("CARGO_MANIFEST_DIR")).join("..")
}

fn text(path: &Path) -> String {
    fs::read_to_string(path).unwrap_or_else(|error| panic!("{}: {error}", path.display()))
}

/// README.md and every page of docs/.
fn documents() -> Vec<PathBuf> {
    let pages = fs::read_dir(project().join("docs")).expect("docs/ is there");
    let pages = pages.map(|entry| entry.expect("a page").path());
    let mut all: Vec<_> = pages.chain([project().join("README.md")]).collect();
    all.sort();
    all
}

/// What stands between back quotes, outside blocks of code.
fn quoted(text: &str) -> Vec<String> {
    let mut names = Vec::new();
    for (n, block) in text.split("```").enumerate() {
        if n % 2 == 0 {
            let parts = block.split('`').enumerate();
            names.extend(
                parts
                    .filter(|(n, _)| n % 2 == 1)
                    .map(|(_, p)| p.to_string()),
            );
        }
    }
    names
}

fn is_name(word: &str) -> bool {
    !word.is_empty()
        && word
            .chars()
            .all(|c| c.is_ascii_lowercase() || c.is_ascii_digit() || c == '_')
}

/// A crate's folder.
fn home(name: &str) -> PathBuf {
    project().join("crates").join(name)
}

/// Has one of the crate's sources this function?
fn has_function(name: &str, function: &str) -> bool {
    let sources = fs::read_dir(home(name).join("src")).expect("a crate has sources");
    let mut sources = sources.map(|entry| entry.expect("a source").path());
    let (plain, lent) = (format!("fn {function}("), format!("fn {function}<"));
    sources.any(|path| {
        let code = text(&path);
        code.contains(&plain) || code.contains(&lent)
    })
}

/// Every source of every crate.
fn sources() -> Vec<String> {
    let crates = fs::read_dir(project().join("crates")).expect("crates/ is there");
    let folders = crates.map(|entry| entry.expect("a crate").path().join("src"));
    let files = folders
        .filter_map(|folder| fs::read_dir(folder).ok())
        .flatten();
    let paths = files.map(|entry| entry.expect("a source").path());
    paths.map(|path| text(&path)).collect()
}

/// Has a type this method, in an `impl` of its own?
fn has_method(kind: &str, method: &str) -> bool {
    let (plain, lent) = (format!(" fn {method}("), format!(" fn {method}<"));
    let is_of_kind = |head: &str| {
        let words = head.split(|c: char| !c.is_ascii_alphanumeric());
        head.starts_with("impl") && words.into_iter().any(|word| word == kind)
    };
    sources().iter().any(|code| {
        let blocks = code.split("\n}").map(|item| match item.rfind("\nimpl") {
            Some(at) => &item[at + 1..],
            None => "",
        });
        blocks.into_iter().any(|block| {
            let head = block.lines().next().unwrap_or_default();
            is_of_kind(head) && (block.contains(&plain) || block.contains(&lent))
        })
    })
}

/// The methods of a quoted name `Type::method` or `Type::{method, method}`.
fn methods(name: &str) -> Option<(&str, Vec<&str>)> {
    let (kind, members) = name.split_once("::")?;
    if !kind.starts_with(|c: char| c.is_ascii_uppercase()) {
        return None;
    }
    let members = members.trim_matches(['{', '}']).split(',').map(str::trim);
    let members: Vec<&str> = members.collect();
    members
        .iter()
        .all(|word| is_name(word))
        .then_some((kind, members))
}

/// What a quoted name says that is not so, if anything. Patterns and names of other things pass.
fn fault(name: &str) -> Option<String> {
    if let Some((kind, members)) = methods(name) {
        let missing = members.iter().find(|method| !has_method(kind, method));
        return missing.map(|method| format!("no such method: {method}"));
    }
    let pattern = name.contains(['*', ' ', '<', 'X']) || name.contains("NAME");
    if pattern {
        return None;
    }
    if FOLDERS.iter().any(|folder| name.starts_with(folder)) {
        let there = project().join(name).exists();
        return (!there).then(|| "no such file".to_string());
    }
    if let Some((first, second)) = name.split_once('/') {
        if is_name(first) && is_name(second) && home(first).is_dir() {
            let edit = home(first).join("must-fail").join(format!("{second}.edit"));
            return (!edit.exists()).then(|| "no such must-fail edit".to_string());
        }
    }
    if let Some((first, second)) = name.split_once("::") {
        if is_name(first) && is_name(second) {
            if !home(first).is_dir() {
                return Some("no such crate".to_string());
            }
            return (!has_function(first, second)).then(|| "no such function".to_string());
        }
    }
    None
}

#[test]
fn what_the_documents_name_is_there() {
    let mut faults = Vec::new();
    let mut looked = 0;
    for path in documents() {
        let page = path
            .file_name()
            .expect("a page has a name")
            .to_string_lossy()
            .into_owned();
        for name in quoted(&text(&path)) {
            looked += 1;
            faults.extend(fault(&name).map(|why| format!("{page}: {name}: {why}")));
        }
    }
    println!("documents: {looked} names between back quotes");
    assert!(looked > 100, "only {looked} names were found");
    assert!(faults.is_empty(), "{}", faults.join("\n"));
}

#[test]
fn a_name_that_is_not_there_is_found() {
    assert_eq!(fault("crates/measures/src/lib.rt"), None);
    assert!(fault("crates/measures/src/none.rt").is_some());
    assert!(fault("measures/no_such_edit").is_some());
    assert_eq!(fault("measures::within"), None);
    assert!(fault("measures::no_such_function").is_some());
    assert!(fault("no_such_crate::function").is_some());
    assert_eq!(fault("Size::within"), None);
    assert_eq!(fault("Row::{is_below, home, number}"), None);
    assert!(fault("Size::no_such_method").is_some());
    assert!(fault("Row::within").is_some());
    assert!(fault("Row::{is_below, within}").is_some());
}
