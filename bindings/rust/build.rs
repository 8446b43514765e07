//! Links libnsq_c.a, which tools/build-lib writes: from the folder that NSQ_LIB_DIR names, else from target/staticlib of the repository, where
//! each processor has its own. What is missing is said in one line.
use std::env;
use std::path::PathBuf;

fn main() {
    println!("cargo::rerun-if-env-changed=NSQ_LIB_DIR");
    match library_folder() {
        Ok(folder) => {
            println!("cargo::rerun-if-changed={}", folder.join("libnsq_c.a").display());
            println!("cargo::rustc-link-search=native={}", folder.display());
            println!("cargo::rustc-link-lib=static=nsq_c");
        }
        Err(why) => println!("cargo::error={why}"),
    }
}

/// The folder that holds the archive, or why there is none.
fn library_folder() -> Result<PathBuf, String> {
    let processor = processor()?;
    let (folder, why_not) = match env::var_os("NSQ_LIB_DIR").map(PathBuf::from) {
        Some(named) => {
            let why_not = format!("NSQ_LIB_DIR names a folder without libnsq_c.a: {}", named.display());
            (named, why_not)
        }
        None => {
            let place = if processor == "x86-64" { "target/staticlib".into() } else { format!("target/staticlib/{processor}") };
            let built = PathBuf::from(cargo("CARGO_MANIFEST_DIR")).join("../..").join(&place);
            (built, format!("no {place}/libnsq_c.a: run tools/build-lib --target {processor}, or name a folder that has one in NSQ_LIB_DIR"))
        }
    };
    if folder.join("libnsq_c.a").is_file() {
        Ok(folder)
    } else {
        Err(why_not)
    }
}

/// What tools/build-lib calls the processor that is compiled for.
fn processor() -> Result<&'static str, String> {
    let target = ["ARCH", "POINTER_WIDTH", "ENDIAN", "OS"].map(|part| cargo(&format!("CARGO_CFG_TARGET_{part}")));
    match target.each_ref().map(String::as_str) {
        ["x86_64", "64", "little", "linux"] => Ok("x86-64"),
        ["aarch64", "64", "little", "linux"] => Ok("aarch64"),
        ["riscv64", "64", "little", "linux"] => Ok("riscv64"),
        [arch, width, endian, os] => Err(format!(
            "no archive for processor {arch} ({width}-bit, {endian}-endian, {os}): there are x86-64, aarch64 and riscv64, on 64-bit Linux"
        )),
    }
}

/// A variable that cargo sets for every build script.
fn cargo(name: &str) -> String {
    env::var(name).unwrap_or_default()
}
