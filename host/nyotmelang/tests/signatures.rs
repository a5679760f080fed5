//! One function is written down three times: in the proved crates, in the header for C, and in the wrapper. Nothing but this test sees whether they agree.
use std::collections::BTreeMap;
use std::fs;
use std::path::{Path, PathBuf};

type Signatures = BTreeMap<String, String>;

fn repository() -> PathBuf {
    Path::new(env!("CARGO_MANIFEST_DIR")).join("../..")
}

fn read(path: &str) -> String {
    fs::read_to_string(repository().join(path)).unwrap_or_else(|error| panic!("{path}: {error}"))
}

fn plain(text: &str) -> String {
    text.split_whitespace().collect::<Vec<_>>().join(" ")
}

// A type of Rust or Rattle as the C types it is to a host.
fn c_type(kind: &str) -> &'static str {
    match kind {
        "&mut [u64; 12]" => "nyotmelang_head *",
        "&[u64; 12]" => "const nyotmelang_head *",
        "&mut [[u64; 3]; 256]" => "nyotmelang_row *",
        "&[[u64; 3]; 256]" => "const nyotmelang_row *",
        "&mut [u32; 64]" => "uint32_t *",
        "&[u32; 64]" => "const uint32_t *",
        "&[u64; 64]" => "const uint64_t *",
        "&mut [[u64; 3]]" => "nyotmelang_row *, size_t",
        "&mut [u32]" => "uint32_t *, size_t",
        "&mut [u8]" => "uint8_t *, size_t",
        "&[u8]" => "const uint8_t *, size_t",
        "&[u32]" => "const uint32_t *, size_t",
        "&[u8; 4096]" => "const uint8_t *",
        "&mut [u8; 4096]" => "uint8_t *",
        "&mut [u64; 4]" | "&mut [u64; 64]" | "&mut u64" => "uint64_t *",
        "&mut usize" => "size_t *",
        "&mut u32" => "uint32_t *",
        "usize" => "size_t",
        "u64" => "uint64_t",
        "u32" => "uint32_t",
        "u8" => "uint8_t",
        "()" | "" => "void",
        other => panic!("the type {other}"),
    }
}

// Functions written as `PREFIX name(args) -> answer`, up to the brace, semicolon or contract after it.
fn rust_like(text: &str, prefix: &str) -> Signatures {
    let text = plain(text);
    let mut found = Signatures::new();
    for part in text.split(prefix).skip(1) {
        let (name, rest) = part.split_once('(').expect("arguments");
        let (args, after) = rest.split_once(')').expect("their end");
        let answer = after.strip_prefix(" -> ").map_or("", |a| a.split([' ', ';']).next().unwrap_or_default());
        let kinds: Vec<_> = args.split(", ").filter_map(|arg| arg.split_once(": ")).collect();
        let args: Vec<_> = kinds.iter().map(|(_, kind)| c_type(kind.trim_end_matches([',', ' ']))).collect();
        found.insert(name.trim().to_string(), format!("{} ({})", c_type(answer), args.join(", ")));
    }
    found
}

// The declarations of the header, without the names of the arguments.
fn header(text: &str) -> Signatures {
    let mut found = Signatures::new();
    for declaration in plain(text).split(';') {
        let Some((front, args)) = declaration.split_once('(') else { continue };
        let Some(name) = front.split(' ').next_back().filter(|name| name.contains('_')) else { continue };
        let answer = front.split(' ').nth_back(1).unwrap_or_default();
        if !["uint8_t", "size_t", "void"].contains(&answer) {
            continue;
        }
        let unnamed = |arg: &str| match arg.rsplit_once(['*', ' ']) {
            Some((kind, _)) if arg.contains('*') => format!("{} *", kind.trim()),
            Some((kind, _)) => kind.trim().to_string(),
            None => panic!("{name}: {arg}"),
        };
        let args: Vec<_> = args.trim_end_matches(')').split(", ").map(unnamed).collect();
        found.insert(name.to_string(), format!("{answer} ({})", args.join(", ")));
    }
    found
}

// Without comments and without the preprocessor's lines.
fn declarations(text: &str) -> String {
    let code = |part: &str| part.split_once("*/").map_or(part.to_string(), |(_, code)| code.to_string());
    let text: String = text.split("/*").map(code).collect();
    text.lines().filter(|line| !line.starts_with('#')).map(|line| format!("{line}\n")).collect()
}

// The source of every crate.
fn sources() -> String {
    let folder = |path: PathBuf| fs::read_dir(path).into_iter().flatten().map(|file| file.expect("a file").path());
    let files = folder(repository().join("crates")).flat_map(|krate| folder(krate.join("src")));
    files.map(|file| fs::read_to_string(file).expect("its text")).collect()
}

#[test]
fn the_same_everywhere() {
    let proved = rust_like(&sources(), "pub extern \"C\" fn ");
    // The part of the macro that makes the functions has none of them.
    let port = read("host/nyotmelang/src/port.rs");
    let port = rust_like(port.split_once("// The calls of a pager, on a store").expect("the functions").1, " fn ");
    let header = header(&declarations(&read("host/include/nyotmelang.h")));
    assert_eq!(header.len(), 53);
    for (name, signature) in &header {
        assert_eq!(proved.get(name), Some(signature), "{name}, header and proved crate");
        assert_eq!(port.get(name), Some(signature), "{name}, header and wrapper");
    }
    assert_eq!((proved.len(), port.len()), (53, 53));
}
