//! Tells the linker where the two libraries lie.

#[path = "../include/link_search.rs"]
mod link_search;

fn main() {
    link_search::link_search("..", &["libtollsalmon.a", "libpace.a"]);
}
