//! The wrapper on document 01's cases and on the plans of the repository.

mod machine;
mod plans;
mod refusals;
mod tables;

use std::fs;
use std::path::PathBuf;
use tollsalmon::Refusal;

const P3: [u32; 4] = [10, 8, 6, 2];

/// The number and the place of what must be refused.
fn refusal<T: std::fmt::Debug>(result: Result<T, Refusal>) -> (u32, u64) {
    let refusal = result.unwrap_err();
    (refusal.number(), refusal.place())
}

fn in_plans(file: &str) -> PathBuf {
    [env!("CARGO_MANIFEST_DIR"), "..", "plans", file].iter().collect()
}

/// The names of all plans.
fn names() -> Vec<String> {
    let files = fs::read_dir(in_plans("")).unwrap().map(|file| file.unwrap().file_name());
    let name = |file: String| file.strip_suffix(".plan").map(str::to_string);
    let names: Vec<String> = files.filter_map(|file| name(file.into_string().unwrap())).collect();
    assert!(names.len() >= 12, "the plans are missing: {names:?}");
    names
}

fn file(name: &str) -> Vec<u8> {
    fs::read(in_plans(&format!("{name}.plan"))).unwrap()
}

fn text(name: &str) -> String {
    fs::read_to_string(in_plans(&format!("{name}.out"))).unwrap()
}
