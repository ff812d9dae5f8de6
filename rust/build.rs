//! Finds libav1rtp.a, in the folder AV1RTP_LIB or where `rust/archive` puts it on x86-64, and links it.
use std::path::PathBuf;

fn main() {
    println!("cargo:rerun-if-env-changed=AV1RTP_LIB");
    let folder = match std::env::var_os("AV1RTP_LIB") {
        Some(folder) => PathBuf::from(folder),
        None => PathBuf::from(std::env::var_os("CARGO_MANIFEST_DIR").unwrap()).join("../target/staticlib"),
    };
    let archive = folder.join("libav1rtp.a");
    println!("cargo:rerun-if-changed={}", archive.display());
    assert!(
        archive.is_file(),
        "{} is missing: run rust/archive, and name the folder that it prints in AV1RTP_LIB",
        archive.display()
    );
    println!("cargo:rustc-link-search=native={}", folder.display());
    println!("cargo:rustc-link-lib=static=av1rtp");
}
