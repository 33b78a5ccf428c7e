//! Links the library's archive, whose folder `run` names, and makes Rust constants of the C header's numbers, so that
//! header and library cannot part unseen.

use std::path::PathBuf;

const HEADER: &str = "../include/mundzavch.h";
const PREFIX: &str = "MUNDZAVCH_";

/// The constant of a header's line, if it has one: a size of a `#define`, or a code or a kind of an enum.
fn constant(line: &str) -> Option<String> {
    let line = line.trim_start();
    let (named, numeric) = match line.strip_prefix("#define ") {
        Some(rest) => (rest, "usize"),
        None => (line, "u64"),
    };
    let mut words = named.strip_prefix(PREFIX)?.split([' ', '=', ',']).filter(|w| !w.is_empty());
    let (name, number) = (words.next()?, words.next()?.parse::<u64>().ok()?);
    Some(format!("pub const {name}: {numeric} = {number};\n"))
}

fn main() {
    let header = std::fs::read_to_string(HEADER).expect("the C header is readable");
    let sizes: String = header.lines().filter_map(constant).collect();
    let out = PathBuf::from(std::env::var_os("OUT_DIR").expect("cargo names a folder")).join("sizes.rs");
    std::fs::write(out, sizes).expect("cargo's folder can be written");
    println!("cargo:rerun-if-changed={HEADER}");

    let folder = std::env::var("MUNDZAVCH_ARCHIVE").expect("run this by compare/run");
    println!("cargo:rustc-link-search=native={folder}");
    println!("cargo:rustc-link-lib=static=capi");
    println!("cargo:rerun-if-env-changed=MUNDZAVCH_ARCHIVE");
    println!("cargo:rerun-if-changed={folder}/libcapi.a");
}
