//! Tells the linker where the library lies.

#[path = "../include/link_search.rs"]
mod link_search;

fn main() {
    link_search::link_search("..", &["libtollsalmon.a"]);
}
