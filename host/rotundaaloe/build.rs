//! Links the proved guard's static library. It stands in `target/staticlib` at
//! the top of the repository, where `host/build` puts it as `libabi.a`,
//! unless `ROTUNDAALOE_LIB_DIR` names another directory, an absolute one: that
//! of an installed `librotundaaloe.a`, or of another `libabi.a`.

use std::env;
use std::path::PathBuf;

const DIRECTORY_VARIABLE: &str = "ROTUNDAALOE_LIB_DIR";
const INSTALLED: &str = "rotundaaloe";
const BUILT: &str = "abi";

fn main() {
    let directory = match env::var_os(DIRECTORY_VARIABLE) {
        Some(directory) => PathBuf::from(directory),
        None => PathBuf::from(env::var_os("CARGO_MANIFEST_DIR").expect("cargo sets this"))
            .join("../../target/staticlib"),
    };
    let file = |name: &str| directory.join(format!("lib{name}.a"));
    let name = match file(INSTALLED).exists() {
        true => INSTALLED,
        false => BUILT,
    };
    if !file(name).exists() {
        println!(
            "cargo::error={} is missing: run `host/build` at the top of the repository, \
             or set {DIRECTORY_VARIABLE} to an absolute directory",
            file(name).display()
        );
    }
    println!("cargo::rerun-if-env-changed={DIRECTORY_VARIABLE}");
    println!("cargo::rerun-if-changed={}", file(name).display());
    println!("cargo::rustc-link-search=native={}", directory.display());
    println!("cargo::rustc-link-lib=static={name}");
}
