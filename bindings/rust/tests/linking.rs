//! What build.rs says where there is nothing to link: one readable line. The processors' own libraries need not be installed for this: build.rs
//! ends the build before they are wanted.
use std::fs;
use std::path::{Path, PathBuf};
use std::process::Command;

const CRATE: &str = env!("CARGO_MANIFEST_DIR");

/// a folder of this name where tests may write
fn scratch(name: &str) -> PathBuf {
    let folder = Path::new(env!("CARGO_TARGET_TMPDIR")).join(name);
    fs::create_dir_all(&folder).unwrap();
    folder
}

/// the crate in `folder` must not build for a target, and this line must be the error
fn fails(folder: &Path, target: &str, library: Option<&Path>, line: &str) {
    let mut cargo = Command::new(std::env::var_os("CARGO").unwrap());
    cargo.args(["check", "--offline", "--target", target]).current_dir(folder);
    cargo.env("CARGO_TARGET_DIR", scratch("target")).env_remove("NSQ_LIB_DIR").envs(library.map(|l| ("NSQ_LIB_DIR", l)));
    let output = cargo.output().unwrap();
    let text = String::from_utf8(output.stderr).unwrap();
    assert!(!output.status.success(), "{text}");
    let ours: Vec<_> = text.lines().filter(|l| l.contains("nsq@") || l.contains("panicked") || l.contains("backtrace")).collect();
    assert_eq!(ours, [format!("error: nsq@{}: {line}", env!("CARGO_PKG_VERSION"))], "{text}");
}

#[test]
fn another_processor_or_system() {
    for (target, what) in [
        ("i686-unknown-linux-gnu", "x86 (32-bit, little-endian, linux)"),
        ("x86_64-unknown-linux-gnux32", "x86_64 (32-bit, little-endian, linux)"),
        ("aarch64_be-unknown-linux-gnu", "aarch64 (64-bit, big-endian, linux)"),
        ("x86_64-pc-windows-gnu", "x86_64 (64-bit, little-endian, windows)"),
    ] {
        let line = format!("no archive for processor {what}: there are x86-64, aarch64 and riscv64, on 64-bit Linux");
        fails(Path::new(CRATE), target, None, &line);
    }
}

#[test]
fn a_named_folder_without_the_archive() {
    let empty = scratch("empty");
    let line = format!("NSQ_LIB_DIR names a folder without libnsq_c.a: {}", empty.display());
    fails(Path::new(CRATE), "x86_64-unknown-linux-gnu", Some(&empty), &line);
}

#[test]
fn a_repository_where_nothing_was_built() {
    let bare = scratch("bare/bindings/rust");
    fs::create_dir_all(bare.join("src")).unwrap();
    for file in ["Cargo.toml", "build.rs", "src/lib.rs"] {
        fs::copy(Path::new(CRATE).join(file), bare.join(file)).unwrap();
    }
    for (target, place, processor) in [
        ("x86_64-unknown-linux-gnu", "target/staticlib", "x86-64"),
        ("aarch64-unknown-linux-gnu", "target/staticlib/aarch64", "aarch64"),
        ("riscv64gc-unknown-linux-gnu", "target/staticlib/riscv64", "riscv64"),
    ] {
        let advice = format!("run tools/build-lib --target {processor}, or name a folder that has one in NSQ_LIB_DIR");
        fails(&bare, target, None, &format!("no {place}/libnsq_c.a: {advice}"));
    }
}
