//! That nothing is forgotten: the archive exports, the header declares and the guarantee's lists speak of the same calls;
//! those that have to do with no store stand in none of its lists. README and manual page name every call and every answer.
#![cfg(feature = "linked")]

use std::collections::BTreeSet;
use std::fs;
use std::path::{Path, PathBuf};
use std::process::Command;

const ARCHIVE: &str = "target/staticlib/librowstore.a";
const HEADER: &str = "include/rowstore.h";
const CALLS: &str = "crates/hosting/specs/Calls.antt";
const README: &str = "README.md";
const MANUAL: &str = "packaging/rowstore.3";
/// Calls that have to do with no store, and so with no list of calls.
const BESIDE: [&str; 2] = ["to_cable", "from_cable"];
const LISTED: &str = "the guarantee's lists and beside them";

type Names = BTreeSet<String>;

fn in_project(path: &str) -> PathBuf {
    Path::new(env!("CARGO_MANIFEST_DIR")).join("..").join(path)
}

fn text(path: &str) -> String {
    fs::read_to_string(in_project(path)).unwrap_or_else(|error| panic!("{path}: {error}"))
}

/// Every global name that the archive defines.
fn exported() -> Names {
    let mut nm = Command::new("nm");
    nm.args(["--extern-only", "--defined-only", "--format=posix"]);
    let output = nm.arg(in_project(ARCHIVE)).output().expect("nm runs");
    let said = String::from_utf8_lossy(&output.stderr);
    assert!(output.status.success(), "{ARCHIVE}: nm: {said}");
    let listed = String::from_utf8(output.stdout).expect("names in UTF-8");
    // A line that ends in a colon names a member of the archive.
    let lines = listed.lines().filter(|line| !line.ends_with(':'));
    let first = |line: &str| line.split_whitespace().next().map(str::to_string);
    lines.filter_map(first).collect()
}

/// C's text without comments and without what is for the preprocessor.
fn bare(text: &str) -> String {
    let mut parts = text.split("/*");
    let mut code = parts.next().unwrap_or_default().to_string();
    for part in parts {
        code += part.split_once("*/").expect("a comment ends").1;
    }
    let code = code.replace("\\\n", " ");
    let lines = code.lines().filter(|line| !line.starts_with('#'));
    lines.collect::<Vec<_>>().join("\n")
}

/// Every function that the header declares: what stands before a declaration's first parenthesis. One that it defines is
/// no call of the library.
fn declared() -> Names {
    let code = bare(&text(HEADER));
    let before = code.split(';').filter_map(|part| part.split_once('('));
    let before = before.filter(|(before, _)| !before.contains("static inline "));
    let name = |(before, _): (&str, &str)| {
        let mut words = before.split(|c: char| !(c.is_alphanumeric() || c == '_'));
        words.rfind(|word| !word.is_empty()).map(str::to_string)
    };
    before.filter_map(name).collect()
}

/// The calls of the guarantee's lists: opening, and the constructors of HostCall. And those beside them.
fn guaranteed() -> Names {
    let text = text(CALLS);
    let (_, body) = text
        .split_once("\npub data HostCall ")
        .unwrap_or_else(|| panic!("{CALLS}: no HostCall"));
    let lines = body.lines().skip(1);
    let constructors = lines
        .take_while(|line| line.is_empty() || line.starts_with(' '))
        .filter(|line| !line.trim_start().starts_with("--"))
        .filter_map(|line| line.split_once(" : "))
        .flat_map(|(names, _)| names.split_whitespace());
    let calls = constructors.chain(["open"]).chain(BESIDE);
    calls.map(|call| format!("rowstore_{call}")).collect()
}

#[test]
fn the_same_calls_everywhere() {
    let sets = [
        (ARCHIVE, exported()),
        (HEADER, declared()),
        (LISTED, guaranteed()),
    ];
    for (place, names) in &sets {
        println!("interface: {} calls in {place}", names.len());
    }
    let all: Names = sets.iter().flat_map(|(_, names)| names.clone()).collect();
    let mut missing = Vec::new();
    for name in &all {
        for (place, _) in sets.iter().filter(|(_, names)| !names.contains(name)) {
            missing.push(format!("{name} is not in {place}"));
        }
    }
    assert!(missing.is_empty(), "{}", missing.join("\n"));
}

/// The answers that the header lists, with their numbers.
fn answers() -> Vec<(String, u8)> {
    let code = bare(&text(HEADER));
    let (_, listed) = code.split_once("enum {").expect("the answers");
    let (listed, _) = listed.split_once('}').expect("their end");
    let answer = |part: &str| {
        let (name, number) = part.split_once(" = ").expect("a name and a number");
        let number = number.trim().parse().expect("a number");
        (name.trim().to_string(), number)
    };
    listed.split(',').map(answer).collect()
}

#[test]
fn readme_and_manual_name_them_all() {
    let (readme, manual) = (text(README), text(MANUAL));
    let answers = answers();
    assert!(answers.len() > 11, "only {} answers", answers.len());
    let mut missing = Vec::new();
    let mut look = |document: &str, place: &str, wanted: String| {
        if !document.contains(&wanted) {
            missing.push(format!("{place} has no {wanted}"));
        }
    };
    for call in declared() {
        look(&readme, README, format!("| `{call}` |"));
        look(&manual, MANUAL, format!(" {call}("));
        look(&manual, MANUAL, format!("\n{call}\t"));
    }
    for (name, number) in &answers {
        look(&readme, README, format!("| {number} | `{name}` |"));
        look(&manual, MANUAL, format!(".BR {name} \" ({number})\"\n"));
    }
    assert!(missing.is_empty(), "{}", missing.join("\n"));
}
