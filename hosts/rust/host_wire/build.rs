//! Links the library of crates/server_exports.

include!("../linking.rs");

fn main() {
    link("cell_server", "CELL_SERVER_LIBRARY", "server_exports");
}
