//! What docs/DECISIONS.md says of the source: the functions between crates that ask something of their caller, and the
//! crates that take limits.

use baizeridge_tests::repository::{root, text};
use std::collections::BTreeSet;

/// The type of the `impl` or the trait that a line begins, and whether it is a public trait, whose functions are public without a word.
fn owner(line: &str) -> Option<(&str, bool)> {
    if let Some(rest) = line.strip_prefix("pub trait ") {
        return Some((name(rest), true));
    }
    if let Some(rest) = line.strip_prefix("trait ") {
        return Some((name(rest), false));
    }
    let rest = line.strip_prefix("impl")?;
    let rest = match rest.strip_prefix('<') {
        Some(parameters) => parameters.split_once("> ")?.1,
        None => rest.strip_prefix(' ')?,
    };
    let of = rest.split_once(" for ").map_or(rest, |(_, of)| of);
    Some((name(of), false))
}

/// The name that a text begins with.
fn name(text: &str) -> &str {
    text.split(|c: char| !c.is_alphanumeric() && c != '_').next().unwrap_or_default()
}

/// The functions of a source that other crates may call and whose contract has a `requires`; those of a type or a trait behind its name.
fn asking(source: &str) -> BTreeSet<String> {
    let mut within = None;
    let mut public = None;
    let mut found = BTreeSet::new();
    for line in source.lines() {
        if line == "}" {
            within = None;
        }
        within = owner(line).or(within);
        let line = line.trim_start();
        let open = line.strip_prefix("pub ").map(|rest| rest.trim_start_matches("extern \"C\" "));
        if let Some(function) = open.unwrap_or(line).strip_prefix("fn ") {
            public = (open.is_some() || within.is_some_and(|(_, open)| open)).then(|| match within {
                Some((of, _)) => format!("{of}::{}", name(function)),
                None => name(function).to_owned(),
            });
        } else if line.starts_with("requires ") || line.starts_with("requires* ") {
            found.extend(public.clone());
        }
    }
    found
}

/// Each file of source of each crate, with the crate's name.
fn sources() -> Vec<(String, String)> {
    let folders = std::fs::read_dir(root().join("crates")).expect("crates/ can be read");
    let mut found = Vec::new();
    for folder in folders.map(|entry| entry.expect("crates/ can be read").path()) {
        let name = folder.file_name().expect("a crate has a name").to_string_lossy().into_owned();
        let mut left = vec![folder.join("src")];
        while let Some(place) = left.pop() {
            if place.is_dir() {
                let inside = std::fs::read_dir(&place).expect("a folder of source can be read");
                left.extend(inside.map(|entry| entry.expect("a folder of source can be read").path()));
            } else if place.extension().is_some_and(|ending| ending == "rt") {
                found.push((name.clone(), text(place)));
            }
        }
    }
    found
}

#[test]
fn every_requires_between_crates_is_listed() {
    let mut found = BTreeSet::new();
    for (name, source) in sources() {
        found.extend(asking(&source).into_iter().map(|function| format!("{name}::{function}")));
    }
    let decisions = text("docs/DECISIONS.md");
    let table = decisions.split("**No public call has a `requires`.**").nth(1).expect("the list is there");
    let table = table.split("\n**").next().expect("the list ends");
    let listed = table.lines().filter(|line| line.starts_with("| `")).flat_map(|line| {
        let functions = line.split(" | ").next().unwrap_or_default();
        quoted(functions)
    });
    assert_eq!(listed.collect::<BTreeSet<_>>(), found);
    assert!(found
        .iter()
        .all(|name| !["calls::", "exports::", "exports_c::"].iter().any(|face| name.starts_with(face))));
}

/// The words in backquotes.
fn quoted(words: &str) -> BTreeSet<String> {
    words.split('`').skip(1).step_by(2).map(str::to_owned).collect()
}

#[test]
fn every_crate_that_takes_limits_is_listed() {
    let all = sources().into_iter();
    let found = all.filter(|(_, source)| source.contains("largest_height")).map(|(name, _)| name);
    let decisions = text("docs/DECISIONS.md");
    let listed = decisions.split("**Limits are taken by ").nth(1).and_then(|rest| rest.split("**").next());
    assert_eq!(quoted(listed.expect("the crates are listed")), found.collect());
}
