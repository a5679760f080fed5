// Links the proved library: libnyotmelang.a in target/staticlib of the repository, as host/library writes it, or in the folder that NYOTMELANG_LIB names.
use std::env;
use std::path::PathBuf;

fn main() {
    let manifest = PathBuf::from(env::var_os("CARGO_MANIFEST_DIR").expect("cargo names the manifest's folder"));
    let folder = match env::var_os("NYOTMELANG_LIB") {
        Some(named) => PathBuf::from(named),
        None => manifest.join("../../target/staticlib"),
    };
    let archive = folder.join("libnyotmelang.a");
    if !archive.exists() {
        panic!("{} is missing: host/library builds it", archive.display());
    }
    println!("cargo:rerun-if-env-changed=NYOTMELANG_LIB");
    println!("cargo:rerun-if-changed={}", archive.display());
    println!("cargo:rustc-link-search=native={}", folder.display());
    println!("cargo:rustc-link-lib=static=nyotmelang");
}
