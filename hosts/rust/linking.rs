// What the three build scripts have in common: each takes this file in, because a build script has no crate of its own to put it into.

use std::path::{Path, PathBuf};
use std::process::Command;

// Links lib`library`.a, which the crate `made_by` makes, and the kit's small C library, by which it reaches malloc, realloc and free.
// It gives back the folder of the library: the one that `variable` names; else that of CELL_CLIENT_LIBRARY, if it holds the library;
// else the first that does of crates/*/out (proved, by `rt ci`), target/proved (by hosts/rust/build), target/unproved (by
// hosts/rust/build --try) and /usr/lib/tillermoss (by the package). The kit is the folder that RATTLE_KIT names, else the one of the page that `rt doc` prints.
fn link(library: &str, variable: &str, made_by: &str) -> PathBuf {
    for name in ["RATTLE_KIT", variable, "CELL_CLIENT_LIBRARY"] {
        println!("cargo:rerun-if-env-changed={name}");
    }
    let file = format!("lib{library}.a");
    let folder = std::env::var_os(variable).map_or_else(|| built(&file, made_by), PathBuf::from);
    assert!(
        folder.join(&file).exists(),
        "there is no {file} in {}: `hosts/rust/build --try` makes it in minutes without proof, `hosts/rust/build` with it; {variable} names another folder",
        folder.display()
    );
    println!("cargo:rerun-if-changed={}", folder.join(&file).display());
    println!("cargo:rustc-link-search=native={}", folder.display());
    println!("cargo:rustc-link-lib=static={library}");
    // (the package has the kit's library beside this one)
    if !folder.join("liblibc_c.a").exists() {
        let kit = std::env::var("RATTLE_KIT").unwrap_or_else(|_| kit_of_rt());
        println!("cargo:rustc-link-search=native={kit}/c");
    }
    println!("cargo:rustc-link-lib=static=libc_c");
    folder
}

// The first folder that holds such a file; where none does, the one where it would be proved.
fn built(file: &str, made_by: &str) -> PathBuf {
    let hosts = Path::new(env!("CARGO_MANIFEST_DIR")).parent().expect("a package stands in hosts/rust");
    let top = hosts.ancestors().nth(2).expect("hosts/rust stands in the repository");
    let proved = top.join("crates").join(made_by).join("out");
    let named = std::env::var_os("CELL_CLIENT_LIBRARY").map(PathBuf::from);
    let folders = [named, Some(proved.clone()), Some(hosts.join("target/proved")), Some(hosts.join("target/unproved")), Some("/usr/lib/tillermoss".into())];
    folders.into_iter().flatten().find(|it| it.join(file).exists()).unwrap_or(proved)
}

fn kit_of_rt() -> String {
    let said = Command::new("rt").arg("doc").output().expect("rt, the command of the Rattle kit, or RATTLE_KIT, its folder, is wanted");
    let page = String::from_utf8(said.stdout).expect("rt doc prints a path");
    let folder = Path::new(page.trim()).parent().expect("a page stands in a folder");
    folder.display().to_string()
}
