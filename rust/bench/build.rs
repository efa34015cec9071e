//! Compiles the two shims, each only where its library can be had. Without one the program still builds and runs,
//! and leaves its rows out: the whole workspace must build on a machine that has neither.

use std::env;
use std::path::{Path, PathBuf};
use std::process::Command;

struct Shim {
    /// The `cfg` that is set when the shim is there; also names its object and its archive.
    name: &'static str,
    source: &'static str,
    /// The compiler, and the variable that names another.
    compiler: (&'static str, &'static str),
    package: &'static str,
    /// What the compiler's own linking adds and rustc's does not.
    runtime: &'static [&'static str],
}

const SHIMS: [Shim; 2] = [
    Shim { name: "freetype", source: "shims/freetype.c", compiler: ("CC", "cc"), package: "freetype2", runtime: &[] },
    Shim { name: "agg", source: "shims/agg.cpp", compiler: ("CXX", "c++"), package: "libagg", runtime: &["stdc++"] },
];

fn main() {
    let out = PathBuf::from(env::var_os("OUT_DIR").expect("cargo sets OUT_DIR"));
    println!("cargo::rerun-if-changed=build.rs");
    println!("cargo::rerun-if-changed=shims");
    let rustc = env::var("RUSTC").unwrap_or_else(|_| "rustc".into());
    set("BENCH_RUSTC", first_line(&rustc, &["--version"]));
    // cargo hands on what the build script of `mattuliyan` prints as `archive`
    let archive = env::var("DEP_TILE_C_ARCHIVE").expect("the build script of mattuliyan names its archive");
    set("BENCH_ARCHIVE", Some(archive));
    for variable in ["PKG_CONFIG_PATH", "PKG_CONFIG_LIBDIR"] {
        println!("cargo::rerun-if-env-changed={variable}");
    }
    for shim in &SHIMS {
        println!("cargo::rustc-check-cfg=cfg({})", shim.name);
        println!("cargo::rerun-if-env-changed={}", shim.compiler.0);
        if compile(shim, &out).is_none() {
            // Cargo runs a script again each time if a path that it watches is not there: the library may be installed
            // before the next build.
            println!("cargo::rerun-if-changed=missing-{}", shim.package);
        }
    }
}

/// Compiles a shim and links it, or does neither and answers nothing.
fn compile(shim: &Shim, out: &Path) -> Option<()> {
    let compiler = env::var(shim.compiler.0).unwrap_or_else(|_| shim.compiler.1.into());
    let flags = words("pkg-config", &["--cflags", shim.package])?;
    let libraries = words("pkg-config", &["--libs", shim.package])?;
    let object = out.join(format!("{}.o", shim.name));
    let trial = out.join(format!("{}.so", shim.name));
    let archive = out.join(format!("libbench_{}.a", shim.name));

    let mut compiling = Command::new(&compiler);
    compiling.args(["-O2", "-Wall", "-fPIC", "-c", shim.source, "-o"]);
    succeeds(compiling.arg(&object).args(&flags))?;

    // Headers without their library would otherwise be found out only when the program itself is linked.
    let mut linking = Command::new(&compiler);
    linking.args(["-shared", "-Wl,--no-undefined", "-o"]);
    succeeds(linking.arg(&trial).arg(&object).args(&libraries))?;

    succeeds(Command::new("ar").arg("crs").arg(&archive).arg(&object))?;

    println!("cargo::rustc-link-search=native={}", out.display());
    println!("cargo::rustc-link-lib=static=bench_{}", shim.name);
    for word in &libraries {
        if let Some(folder) = word.strip_prefix("-L") {
            println!("cargo::rustc-link-search=native={folder}");
        } else if let Some(library) = word.strip_prefix("-l") {
            println!("cargo::rustc-link-lib={library}");
        }
    }
    for library in shim.runtime {
        println!("cargo::rustc-link-lib={library}");
    }
    println!("cargo::rustc-cfg={}", shim.name);
    let variable = shim.name.to_uppercase();
    if shim.name == "agg" {
        // FreeType tells its version itself.
        set("BENCH_AGG_PACKAGE", first_line("pkg-config", &["--modversion", shim.package]));
    }
    set(&format!("BENCH_{variable}_COMPILER"), first_line(&compiler, &["--version"]));
    Some(())
}

/// Hands the program what is known here: a version, for its page, or a path.
fn set(variable: &str, value: Option<String>) {
    if let Some(value) = value {
        println!("cargo::rustc-env={variable}={value}");
    }
}

/// Runs quietly, and answers whether it went well: a message of a missing header is no error of this build.
fn succeeds(command: &mut Command) -> Option<()> {
    let output = command.output().ok()?;
    output.status.success().then_some(())
}

fn output(program: &str, arguments: &[&str]) -> Option<String> {
    let output = Command::new(program).args(arguments).output().ok()?;
    let text = String::from_utf8(output.stdout).ok()?;
    output.status.success().then_some(text)
}

fn words(program: &str, arguments: &[&str]) -> Option<Vec<String>> {
    let text = output(program, arguments)?;
    Some(text.split_whitespace().map(str::to_string).collect())
}

fn first_line(program: &str, arguments: &[&str]) -> Option<String> {
    Some(output(program, arguments)?.lines().next()?.to_string())
}
