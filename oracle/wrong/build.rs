//! Writes a copy of the plain reading for each entry of `edits`, with that entry's text replaced.

use std::fmt::Write;
use std::path::{Path, PathBuf};
use std::{env, fs};

const FILES: [&str; 7] = [
    "lib.rs",
    "boxed.rs",
    "event.rs",
    "graph.rs",
    "machine.rs",
    "sheet.rs",
    "snapshot.rs",
];

struct Edit {
    about: String,
    changes: Vec<Change>,
}

struct Change {
    file: String,
    old: String,
    new: String,
}

/// An entry begins with `# about`; each change of it is `@ file`, the old lines, `=`, the new lines, `.`
fn edits(text: &str) -> Vec<Edit> {
    let mut edits: Vec<Edit> = Vec::new();
    let mut lines = text.lines();
    while let Some(line) = lines.next() {
        if let Some(about) = line.strip_prefix("# ") {
            edits.push(Edit {
                about: about.to_string(),
                changes: Vec::new(),
            });
        } else if let Some(file) = line.strip_prefix("@ ") {
            let old = until(&mut lines, "=");
            let new = until(&mut lines, ".");
            let edit = edits.last_mut().expect("a change before any entry");
            edit.changes.push(Change {
                file: file.to_string(),
                old,
                new,
            });
        } else {
            assert!(line.is_empty(), "{line:?}");
        }
    }
    edits
}

fn until<'a>(lines: &mut impl Iterator<Item = &'a str>, end: &str) -> String {
    let lines: Vec<&str> = lines.take_while(|line| *line != end).collect();
    lines.join("\n")
}

/// The text in which blanks and ends of line count alike.
fn replace(source: &str, change: &Change, about: &str) -> String {
    let places: Vec<_> = source.match_indices(&change.old).collect();
    assert_eq!(places.len(), 1, "{about}: found {} times", places.len());
    source.replace(&change.old, &change.new)
}

fn write_copy(folder: &Path, plain: &Path, edit: &Edit) {
    fs::create_dir_all(folder).unwrap();
    for file in FILES {
        let mut source = fs::read_to_string(plain.join(file)).unwrap();
        for change in edit.changes.iter().filter(|change| change.file == file) {
            source = replace(&source, change, &edit.about);
        }
        let name = if file == "lib.rs" { "mod.rs" } else { file };
        fs::write(folder.join(name), source).unwrap();
    }
}

fn main() {
    let out = PathBuf::from(env::var("OUT_DIR").unwrap());
    let plain = PathBuf::from("../plain/src");
    println!("cargo:rerun-if-changed=edits");
    println!("cargo:rerun-if-changed=../plain/src");
    let text = fs::read_to_string("edits").unwrap();
    let mut modules = String::new();
    let mut list = String::new();
    for (i, edit) in edits(&text).iter().enumerate() {
        assert!(!edit.changes.is_empty(), "{}: no change", edit.about);
        let folder = out.join(format!("w{i}"));
        write_copy(&folder, &plain, edit);
        let path = folder.join("mod.rs");
        writeln!(modules, "#[allow(unused, dead_code, clippy::all)]").unwrap();
        writeln!(modules, "#[path = {path:?}]\nmod w{i};").unwrap();
        let about = &edit.about;
        writeln!(
            list,
            "Reading {{ about: {about:?}, answer: w{i}::answer }},"
        )
        .unwrap();
    }
    let source = format!(
        "{modules}\n/// All of them, in the order of `edits`.\npub fn readings() -> Vec<Reading> {{\n    vec![\n{list}    ]\n}}\n"
    );
    fs::write(out.join("readings.rs"), source).unwrap();
}
