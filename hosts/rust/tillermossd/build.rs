//! Links the library of crates/mastership.

include!("../linking.rs");

fn main() {
    link("mastership", "MASTERSHIP_LIBRARY", "mastership");
}
