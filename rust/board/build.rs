//! Tells Cargo where the static library `libboard.a` is: in the folder that
//! BOARD_LIB_DIR names (as an absolute path), or else in `target/staticlib` of
//! the repository that this crate stands in.

use std::env;
use std::path::{Path, PathBuf};

fn main() {
    println!("cargo:rerun-if-env-changed=BOARD_LIB_DIR");
    let repository = repository();
    let folder = match env::var_os("BOARD_LIB_DIR") {
        Some(folder) => PathBuf::from(folder),
        None => repository.join("target/staticlib"),
    };
    let library = folder.join("libboard.a");
    println!("cargo:rerun-if-changed={}", library.display());
    if !library.exists() {
        eprintln!("{}", how_to_go_on(&library, &repository));
        std::process::exit(1);
    }
    println!("cargo:rustc-link-search=native={}", folder.display());
    println!("cargo:rustc-link-lib=static=board");
}

/// This crate is `rust/board` of the repository, whoever builds it.
fn repository() -> PathBuf {
    let this_crate = PathBuf::from(env::var_os("CARGO_MANIFEST_DIR").expect("Cargo sets it"));
    this_crate.ancestors().nth(2).expect("it is two folders down").to_path_buf()
}

fn how_to_go_on(library: &Path, repository: &Path) -> String {
    format!(
        "{} is not there yet. Please build it first, with `./tools/build-library` in {}; \
         or name the folder of a libboard.a, as an absolute path, in BOARD_LIB_DIR. \
         The tests of the Rust side that need no library: \
         cargo test --offline --workspace --exclude board --no-default-features",
        library.display(),
        repository.display()
    )
}
