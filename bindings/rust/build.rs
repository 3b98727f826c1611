//! Says where the archive is: MORTARBEE_ARCHIVE names its folder, else it is target/staticlib of this repository. Where there is none,
//! documentation can still be made and the code checked; what links is told what is missing.
use std::path::PathBuf;

fn main() {
    println!("cargo:rerun-if-env-changed=MORTARBEE_ARCHIVE");
    let name = match (std::env::var_os("CARGO_FEATURE_ALL"), std::env::var_os("CARGO_FEATURE_CORE")) {
        (Some(_), _) => "border",
        (None, Some(_)) => "border_core",
        _ => return,
    };
    let folder = std::env::var_os("MORTARBEE_ARCHIVE")
        .map(PathBuf::from)
        .unwrap_or_else(|| PathBuf::from(std::env::var_os("CARGO_MANIFEST_DIR").expect("set by cargo")).join("../../target/staticlib"));
    let archive = folder.join(format!("lib{name}.a"));
    println!("cargo:rerun-if-changed={}", archive.display());
    if std::env::var("CARGO_CFG_TARGET_ARCH").as_deref() != Ok("x86_64") {
        println!(
            "cargo:warning=lib{name}.a is for x86-64: a program needs --target x86_64-unknown-linux-gnu \
             (rustup target add x86_64-unknown-linux-gnu), and a linker for it"
        );
    } else if archive.is_file() {
        println!("cargo:rustc-link-search=native={}", folder.display());
        println!("cargo:rustc-link-lib=static={name}");
    } else {
        println!("cargo:warning=no {}: run 'bindings/archive.sh {name}' first", archive.display());
    }
}
