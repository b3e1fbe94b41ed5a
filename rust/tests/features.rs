//! The package by its features: without `std` a program that has no std builds with it, and with it none
//! does.

use std::fs;
use std::path::Path;
use std::process::{Command, Output};

/// Builds tests/firmware as a library for C, over the package with some features.
fn firmware(name: &str, features: &str) -> Output {
    let room = Path::new(env!("CARGO_TARGET_TMPDIR")).join(name);
    fs::create_dir_all(&room).expect("a folder can be made");
    let package = env!("CARGO_MANIFEST_DIR");
    let manifest = format!(
        r#"
        [package]
        name = "firmware"
        edition = "2021"
        [lib]
        path = "{package}/tests/firmware/lib.rs"
        crate-type = ["staticlib"]
        [dependencies]
        cahermisk = {{ path = "{package}", default-features = false, features = [{features}] }}
        [profile.dev]
        panic = "abort"
        [workspace]
        "#
    );
    let file = room.join("Cargo.toml");
    fs::write(&file, manifest).expect("a manifest can be written");
    let archive = Path::new(env!("CAHERMISK_ARCHIVE"));
    Command::new(env!("CARGO"))
        .args(["build", "--offline", "--quiet", "--manifest-path"])
        .arg(&file)
        .env("CARGO_TARGET_DIR", room.join("target"))
        .env("CAHERMISK_LIB_DIR", archive.parent().expect("its folder"))
        .output()
        .expect("cargo can be run")
}

#[test]
fn a_program_without_std_builds() {
    let built = firmware("firmware", "");
    let said = String::from_utf8_lossy(&built.stderr);
    assert!(built.status.success(), "{said}");
}

/// Only so does the test above show that std is not there.
#[test]
fn with_the_feature_std_it_does_not() {
    let built = firmware("firmware-std", "\"std\"");
    let said = String::from_utf8_lossy(&built.stderr);
    assert!(
        !built.status.success() && said.contains("panic_impl"),
        "{said}"
    );
}
