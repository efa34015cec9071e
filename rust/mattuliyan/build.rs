//! Has the toolchain prove `tile_c`, with every crate below it, and link it as a static library.
use std::path::Path;
use std::process::Command;
use std::{env, fs};

fn main() {
    let top = Path::new(&env::var_os("CARGO_MANIFEST_DIR").unwrap()).join("../..");
    // What is proved and linked is made of these; what rt makes of it stands in each crate's out/.
    for entry in fs::read_dir(top.join("crates")).expect("the crates are there") {
        for part in ["src", "specs", "proofs"] {
            let folder = entry.as_ref().expect("a crate's folder").path().join(part);
            if folder.is_dir() {
                println!("cargo::rerun-if-changed={}", folder.display());
            }
        }
    }
    println!("cargo::rerun-if-changed={}", top.join("crates.txt").display());

    let made = Command::new("rt").arg("lib").current_dir(top.join("crates/tile_c")).output();
    let made = made.unwrap_or_else(|error| panic!("rt, the command of the Rattle toolchain, does not start: {error}"));
    assert!(
        made.status.success(),
        "rt lib of tile_c failed; nothing is linked\n{}{}",
        String::from_utf8_lossy(&made.stdout),
        String::from_utf8_lossy(&made.stderr)
    );

    // A copy is linked, because `rt ci` begins by removing what it finds.
    let out = env::var_os("OUT_DIR").unwrap();
    let archive = Path::new(&out).join("libtile_c.a");
    fs::copy(top.join("crates/tile_c/out/libtile_c.a"), &archive).expect("rt lib left no archive of tile_c");
    println!("cargo::rustc-link-search=native={}", Path::new(&out).display());
    println!("cargo::rustc-link-lib=static=tile_c");
    // for the test of the C header, which links the same archive, and for the build script of a crate that depends on this one
    println!("cargo::rustc-env=TILE_C_ARCHIVE={}", archive.display());
    println!("cargo::metadata=archive={}", archive.display());
}
