//! Tells the linker where the library lies, and writes the broken programs: copies of the second
//! program with one edit each (edits/).

mod edits;
#[path = "../../include/link_search.rs"]
mod link_search;

fn main() {
    link_search::link_search("../..", &["libtollsalmon.a"]);
    edits::write_broken_programs();
}
