//! Links the product's archive. With the feature `stand-in` it is not linked.

#[path = "../link.rs"]
mod link;

use std::env;

fn main() {
    if env::var_os("CARGO_FEATURE_STAND_IN").is_none() {
        link::archive();
    }
}
