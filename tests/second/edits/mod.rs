//! The faults that the comparisons have to notice. Each is one edit of the second program: the text
//! to find, which must stand there exactly once, and the text that replaces it. The programs that
//! have them are copies of a source file with one edit each.

mod machine;
mod plan;
mod tables;
mod text;

use std::ffi::OsStr;
use std::path::{Path, PathBuf};
use std::{env, fs};

struct Edit {
    name: &'static str,
    find: &'static str,
    replace: &'static str,
}

const fn edit(name: &'static str, find: &'static str, replace: &'static str) -> Edit {
    Edit { name, find, replace }
}

/// A source file, its edits, and the program that has the fault, told from its copy's module.
struct Source {
    file: &'static str,
    edits: &'static [Edit],
    program: fn(&str) -> String,
}

/// Writes the broken programs of every part with the type that they have.
pub fn write_broken_programs() {
    println!("cargo:rerun-if-changed=edits");
    write("tables", "Analyse", &[tables::ANALYSIS]);
    write("machine", "Program", &[machine::RULES, machine::NUMBERS]);
    write("plan", "Functions", &[plan::FILE]);
    write("text", "Text", &[text::RUN]);
}

/// The copies, and the list BROKEN of the programs with their names.
fn write(part: &str, kind: &str, sources: &[Source]) {
    let mut text = String::new();
    let list: String = sources.iter().map(|source| copies(&mut text, source)).collect();
    let number: usize = sources.iter().map(|source| source.edits.len()).sum();
    text += &format!("pub const BROKEN: [(&str, {kind}); {number}] = [\n{list}];\n");
    let folder = PathBuf::from(env::var("OUT_DIR").unwrap());
    fs::write(folder.join(format!("broken_{part}.rs")), text).unwrap();
}

/// A copy of the file for each edit, in a module of its own; gives the lines of their list.
fn copies(text: &mut String, source: &Source) -> String {
    println!("cargo:rerun-if-changed={}", source.file);
    let sound = fs::read_to_string(source.file).unwrap();
    let name = Path::new(source.file).file_stem().and_then(OsStr::to_str).unwrap();
    let mut list = String::new();
    for (i, edit) in source.edits.iter().enumerate() {
        let module = format!("{name}_{i}");
        *text += &format!("mod {module} {{\n{}\n}}\n", edited(&sound, edit));
        list += &format!("    ({:?}, {}),\n", edit.name, (source.program)(&module));
    }
    list
}

/// The source with the edit made. An edit that doesn't fit exactly once is a defect of the list.
fn edited(source: &str, edit: &Edit) -> String {
    let fits = source.matches(edit.find).count();
    assert!(fits == 1, "edit '{}' fits {fits} times, not once", edit.name);
    source.replacen(edit.find, edit.replace, 1)
}
