//! Declares the calls of the list `host/calls.def` for the differ program, and with the feature
//! `link` gives it the library under test, with `heartbeat` also that of the heartbeats.

use std::path::Path;
use std::{env, fs};

const LIST: &str = "../calls.def";

/// A parameter as the list has it, in Rust's words.
fn parameter(listed: &str) -> String {
    let inner = listed.strip_suffix(')').and_then(|p| p.split_once('('));
    match inner {
        Some(("READS", x)) => format!("{x}: *const u8, {x}_length: usize"),
        Some(("WRITES", x)) => format!("{x}: *mut u8, {x}_length: usize"),
        Some(("NUMBER", x)) => format!("{x}: u64"),
        _ if listed == "NOTHING" => String::new(),
        _ => panic!("{LIST} has a parameter {listed}"),
    }
}

/// The declaration of a call, from its line.
fn declaration(line: &str) -> Option<String> {
    let call = line.strip_prefix("CALL(")?.strip_suffix(')')?;
    let (name, listed) = call.split_once(", ")?;
    let parameters: Vec<String> = listed.split(", ").map(parameter).collect();
    let parameters = parameters.join(", ");
    Some(format!("    pub fn rpr_{name}({parameters}) -> u64;\n"))
}

fn declare_calls() {
    println!("cargo:rerun-if-changed={LIST}");
    let list = fs::read_to_string(LIST).expect("the list of calls is beside this folder");
    let calls: String = list.lines().filter_map(declaration).collect();
    let folder = env::var("OUT_DIR").expect("cargo names a folder for what is generated");
    let text = format!("extern \"C\" {{\n{calls}}}\n");
    fs::write(Path::new(&folder).join("calls.rs"), text).expect("calls.rs can be written");
}

fn link_archive(folder: &str, name: &str) {
    let archive = Path::new(folder).join(name).canonicalize();
    let archive = archive.unwrap_or_else(|_| panic!("RPR_LIB_DIR holds {name}"));
    let archive = archive.display();
    println!("cargo:rerun-if-changed={archive}");
    println!("cargo:rustc-link-arg-bin=differ={archive}");
}

fn link_library() {
    println!("cargo:rerun-if-env-changed=RPR_LIB_DIR");
    if env::var_os("CARGO_FEATURE_LINK").is_none() {
        return;
    }
    let folder = env::var("RPR_LIB_DIR").expect("RPR_LIB_DIR names the folder of librpr.a");
    link_archive(&folder, "librpr.a");
    if env::var_os("CARGO_FEATURE_HEARTBEAT").is_some() {
        link_archive(&folder, "libheartbeat.a");
    }
    // A library with a panic handler of its own may define what this program has too.
    println!("cargo:rustc-link-arg-bin=differ=-Wl,--allow-multiple-definition");
}

fn main() {
    println!("cargo:rerun-if-changed=build.rs");
    declare_calls();
    link_library();
}
