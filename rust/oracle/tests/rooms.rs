//! The files of the oracle stand in rooms. Arrows between rooms go one way, no file uses itself by way of
//! others, and inputs and models ask neither the port, nor the face, nor the program.

use std::collections::BTreeMap;
use std::path::Path;
use std::{fs, io};

/// The rooms, and what each may use beside itself: rooms, or files of them.
const ROOMS: [(&str, &[&str]); 5] = [
    ("subjects", &[]),
    ("inputs", &["subjects::told"]),
    (
        "models",
        &["inputs", "subjects::the_crate", "subjects::told"],
    ),
    ("comparisons", &["models", "inputs", "subjects"]),
    ("wrong", &["models", "inputs", "subjects"]),
];

/// The rooms that call nothing of the port and of the face.
const SILENT: [&str; 2] = ["inputs", "models"];

/// The source of each file, by its name, as `inputs::lines`.
type Files = BTreeMap<String, String>;

/// Adds the files of a folder whose names begin so.
fn read(folder: &Path, front: &str, files: &mut Files) -> io::Result<()> {
    for entry in fs::read_dir(folder)? {
        let path = entry?.path();
        let name = path.file_stem().and_then(|name| name.to_str());
        let name = format!("{front}{}", name.expect("a name in UTF-8"));
        if path.is_dir() {
            read(&path, &format!("{name}::"), files)?;
        } else {
            files.insert(name, fs::read_to_string(&path)?);
        }
    }
    Ok(())
}

/// The source without its comments.
fn bare(source: &str) -> String {
    let line = |line: &str| line.split("//").next().unwrap_or("").to_string() + "\n";
    source.lines().map(line).collect()
}

fn in_name(c: char) -> bool {
    c.is_alphanumeric() || c == '_' || c == '*'
}

/// The paths at the front of a text, those in braces one by one, and what follows them.
fn tree(text: &str) -> (Vec<String>, &str) {
    if let Some(mut rest) = text.strip_prefix('{') {
        let mut found = Vec::new();
        loop {
            rest = rest.trim_start_matches(|c: char| c.is_whitespace() || c == ',');
            if let Some(behind) = rest.strip_prefix('}') {
                return (found, behind);
            }
            let (more, behind) = tree(rest);
            found.extend(more);
            rest = behind;
        }
    }
    let (name, rest) = text.split_at(text.find(|c| !in_name(c)).unwrap_or(text.len()));
    assert!(!name.is_empty(), "no path: {}", &text[..text.len().min(40)]);
    match rest.strip_prefix("::") {
        Some(inner) => {
            let (found, behind) = tree(inner);
            let whole = |path| format!("{name}::{path}");
            (found.into_iter().map(whole).collect(), behind)
        }
        None => (vec![name.into()], rest),
    }
}

/// What stands after this name in the paths that begin with it.
fn paths(source: &str, first: &str) -> Vec<String> {
    let source = bare(source);
    let start = format!("{first}::");
    let places = source.match_indices(&start);
    let begins = |(at, _): &(usize, _)| !source[..*at].ends_with(|c| in_name(c) || c == ':');
    let places = places.filter(begins);
    places
        .flat_map(|(at, _)| tree(&source[at + start.len()..]).0)
        .collect()
}

/// Whether a path lies in a room or a file, or is that.
fn lies_in(path: &str, place: &str) -> bool {
    let behind = path.strip_prefix(place);
    behind.map_or(false, |rest| rest.is_empty() || rest.starts_with("::"))
}

/// The other files that a file uses.
fn used<'a>(name: &str, files: &'a Files) -> Vec<&'a str> {
    let paths = paths(&files[name], "crate");
    let used = |file: &&String| **file != name && paths.iter().any(|path| lies_in(path, file));
    files.keys().filter(used).map(String::as_str).collect()
}

/// What is wrong with the arrows and calls of a file in a room.
fn faults_of(name: &str, files: &Files) -> Vec<String> {
    let room = ROOMS.iter().find(|(room, _)| lies_in(name, room));
    let (room, others) = match room {
        Some(room) => room,
        None => return vec![format!("{name} stands in no room")],
    };
    let source = &files[name];
    let mut found = Vec::new();
    for path in paths(source, "crate") {
        let mut allowed = others.iter().chain([room]);
        if !allowed.any(|place| lies_in(&path, place)) {
            found.push(format!("{name} uses {path}"));
        }
        if !files
            .keys()
            .any(|file| file.contains("::") && lies_in(&path, file))
        {
            found.push(format!("{name} uses {path}, which is no file of a room"));
        }
    }
    if !paths(source, "super").is_empty() {
        found.push(format!("{name} names what it uses from `super` on"));
    }
    if SILENT.contains(room) {
        let mut asked = paths(source, "ihex");
        asked.extend(paths(source, "ihex_sys"));
        asked.retain(|path| path.starts_with(char::is_lowercase));
        found.extend(asked.iter().map(|path| format!("{name} asks {path}")));
    }
    found
}

/// The files that use themselves by way of others.
fn in_circles<'a>(files: &'a Files) -> Vec<&'a str> {
    let arrows = |name: &'a String| (name.as_str(), used(name, files));
    let arrows: BTreeMap<&str, Vec<&str>> = files.keys().map(arrows).collect();
    let circles = |name: &&str| {
        let mut reached = arrows[name].clone();
        let mut next = 0;
        while let Some(file) = reached.get(next) {
            let mut more = arrows[file].clone();
            more.retain(|other| !reached.contains(other));
            reached.extend(more);
            next += 1;
        }
        reached.contains(name)
    };
    arrows.keys().copied().filter(circles).collect()
}

/// What is wrong with the rooms.
fn faults(files: &Files) -> Vec<String> {
    let mut found: Vec<String> = files
        .keys()
        .flat_map(|name| faults_of(name, files))
        .collect();
    let circle = in_circles(files);
    if !circle.is_empty() {
        found.push(format!("in a circle: {}", circle.join(", ")));
    }
    found
}

#[test]
fn the_oracle_stands_in_rooms() -> io::Result<()> {
    let mut files = Files::new();
    let folder = Path::new(env!("CARGO_MANIFEST_DIR")).join("src");
    read(&folder, "", &mut files)?;
    for top in ["lib", "main"] {
        assert!(files.remove(top).is_some(), "{top}");
    }
    assert_eq!(faults(&files), Vec::<String>::new());
    Ok(())
}

/// The faults of a small house with one more file, or with another in the place of one.
fn faults_with(name: &str, source: &str) -> Vec<String> {
    let house = [
        ("subjects::told", "pub fn told() {}"),
        (
            "subjects::port",
            "use crate::subjects::told; // crate::wrong::sums",
        ),
        ("inputs::sums", "use ihex_sys::{CARRY, Standing};"),
        (
            "models::sums",
            "use crate::{inputs::sums, subjects::told::told};",
        ),
        ("wrong::sums", "fn f() { crate::subjects::port::next() }"),
        (name, source),
    ];
    let owned = |(name, source): (&str, &str)| (name.to_string(), source.to_string());
    faults(&house.into_iter().map(owned).collect())
}

/// Files that are wrong, and the fault of each.
const FAULTS: [(&str, &str, &str); 8] = [
    ("sums", "", "sums stands in no room"),
    (
        "models::lines",
        "use crate::subjects::{told, port::Port};",
        "models::lines uses subjects::port::Port",
    ),
    (
        "wrong::lines",
        "use crate::{\n    subjects::told,\n    comparisons::sums,\n};",
        "wrong::lines uses comparisons::sums",
    ),
    (
        "wrong::lines",
        "use crate::models;",
        "wrong::lines uses models, which is no file of a room",
    ),
    (
        "inputs::lines",
        "use super::sums;",
        "inputs::lines names what it uses from `super` on",
    ),
    (
        "inputs::sums",
        "use ihex_sys::{checksum, CARRY};",
        "inputs::sums asks checksum",
    ),
    (
        "models::lines",
        "fn f() { ihex::load() }",
        "models::lines asks load",
    ),
    (
        "subjects::told",
        "use crate::subjects::port;",
        "in a circle: subjects::port, subjects::told",
    ),
];

#[test]
fn each_fault_is_found() {
    let right = "use crate::models::sums::{self, Sum};\nuse crate::subjects::{port::Port, told};";
    assert_eq!(faults_with("comparisons::sums", right), [""; 0]);
    for (name, source, fault) in FAULTS {
        let found = faults_with(name, source);
        assert!(found.iter().any(|one| one == fault), "{found:?}");
    }
}
