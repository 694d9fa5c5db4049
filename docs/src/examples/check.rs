//! Checks a log and a bundle with the independent reader: `cargo run --example check LOG BUNDLE`.
use std::{env, fs, process::exit};

fn main() {
    let names: Vec<String> = env::args().skip(1).collect();
    if names.len() != 2 {
        eprintln!("usage: check LOG BUNDLE");
        exit(2);
    }
    let files: Vec<Option<Vec<u8>>> = names.iter().map(|n| fs::read(n).ok()).collect();
    print!(
        "{}",
        mshelovat_reference::programs::desk(files[0].as_deref(), files[1].as_deref())
    );
}
