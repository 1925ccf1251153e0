//! Links the client library, and says in the crate's version where that was built without proof.

include!("../linking.rs");

fn main() {
    let folder = link("cell_client", "CELL_CLIENT_LIBRARY", "client_exports");
    // (hosts/rust/unproved leaves that file beside a library that isn't proved)
    let unproved = folder.join("unproved");
    let note = if unproved.exists() { ", over a client library that was built without proof" } else { "" };
    println!("cargo:rustc-env=TILLERMOSS_VERSION={}{note}", env!("CARGO_PKG_VERSION"));
}
