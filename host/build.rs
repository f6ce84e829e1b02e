//! Links the product: libnyokazerubi.a of the folder NYOKAZERUBI_ARCHIVE, by default target/staticlib of the repository, where `host/native target/staticlib` writes it.

use std::env;
use std::fs;
use std::path::PathBuf;

/// The number of the machine in the first object of an archive, as ELF has it.
fn machine(archive: &[u8]) -> Option<u8> {
    let at = archive.windows(4).position(|bytes| bytes == b"\x7fELF")?;
    archive.get(at + 18).copied()
}

fn main() {
    println!("cargo:rerun-if-env-changed=NYOKAZERUBI_ARCHIVE");
    let home = PathBuf::from(env::var("CARGO_MANIFEST_DIR").expect("cargo says where"));
    let by_default = || home.join("../target/staticlib");
    let folder = env::var_os("NYOKAZERUBI_ARCHIVE").map_or_else(by_default, PathBuf::from);
    let path = folder.join("libnyokazerubi.a");
    let archive = fs::read(&path)
        .unwrap_or_else(|error| panic!("{}: {error}. host/check builds it and runs all of this", path.display()));
    let wanted = match env::var("CARGO_CFG_TARGET_ARCH").as_deref() {
        Ok("x86_64") => 62,
        Ok("aarch64") => 183,
        other => panic!("no product for {other:?}"),
    };
    let has = machine(&archive);
    assert!(
        has == Some(wanted),
        "{} is for another machine (ELF {has:?}, wanted {wanted}). host/check builds one for this machine",
        path.display()
    );
    println!("cargo:rerun-if-changed={}", path.display());
    println!("cargo:rustc-link-search=native={}", folder.display());
    println!("cargo:rustc-link-lib=static=nyokazerubi");
}
