//! Links the product's archive.

#[path = "../link.rs"]
mod link;

fn main() {
    link::archive();
}
