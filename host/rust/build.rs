//! Finds the proved library: in the folder that MERELSTOF_LIB names, else where `host/build` leaves it.

use std::path::PathBuf;
use std::{env, process};

fn main() {
    let here = PathBuf::from(env::var("CARGO_MANIFEST_DIR").expect("cargo says where the crate is"));
    let folder = env::var("MERELSTOF_LIB").map_or(here.join("../../target/staticlib"), PathBuf::from);
    let library = folder.join("libpractice.a");
    println!("cargo:rerun-if-env-changed=MERELSTOF_LIB");
    println!("cargo:rerun-if-changed={}", library.display());
    if env::var("CARGO_CFG_TARGET_ARCH").as_deref() != Ok("x86_64") {
        stop("the library is x86-64: build with --target x86_64-unknown-linux-gnu; host/rust/cargo does, and runs it under qemu-x86_64");
    }
    if !library.is_file() {
        stop(&format!("{} is not there: run host/build first, or let MERELSTOF_LIB name its folder", library.display()));
    }
    println!("cargo:rustc-link-search=native={}", folder.display());
    println!("cargo:rustc-link-lib=static=practice");
}

fn stop(why: &str) -> ! {
    eprintln!("merelstof: {why}");
    process::exit(1);
}
