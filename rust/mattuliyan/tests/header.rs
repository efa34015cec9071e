//! The C header: it compiles, what it declares is what the archive has, and C gets the right answers through it. A second program of C shows what the
//! search behind question 9 reads.
use std::path::{Path, PathBuf};
use std::process::Command;

const TOP: &str = concat!(env!("CARGO_MANIFEST_DIR"), "/../..");

fn read(path: &str) -> String {
    std::fs::read_to_string(Path::new(TOP).join(path)).unwrap_or_else(|error| panic!("{path}: {error}"))
}

fn include() -> PathBuf {
    Path::new(TOP).join("crates/tile_c/include")
}

fn run(command: &mut Command) -> String {
    let output = command.output().unwrap_or_else(|error| panic!("{command:?}: {error}"));
    assert!(output.status.success(), "{command:?}\n{}", String::from_utf8_lossy(&output.stderr));
    String::from_utf8(output.stdout).unwrap()
}

/// The text in one line and without repeated blanks, so that two ways of laying it out compare equal.
fn in_one_line(text: &str) -> String {
    text.split_whitespace().collect::<Vec<_>>().join(" ").replace("( ", "(").replace(", )", ")").replace(" )", ")")
}

/// What stands between each `begin` and the `end` after it.
fn between<'a>(text: &'a str, begin: &str, end: &str) -> Vec<&'a str> {
    text.split(begin).skip(1).map(|rest| rest.split(end).next().unwrap()).collect()
}

/// A signature of the library, `name(side: u32, points: &[i64], ..) -> u32`, as name and parameters.
fn parameters(signature: &str) -> (String, Vec<(String, String)>) {
    let (name, rest) = signature.split_once('(').unwrap();
    let list = rest.rsplit_once(") -> u32").expect("each call answers a u32").0;
    let named = |parameter: &str| {
        let (name, kind) = parameter.trim().split_once(": ").unwrap();
        (name.to_string(), kind.to_string())
    };
    (name.to_string(), list.split(',').filter(|p| !p.trim().is_empty()).map(named).collect())
}

/// The parameters that C sees: a slice is a pointer and a length.
fn flat(
    parameters: &[(String, String)],
    pointer: impl Fn(&str, bool) -> String,
    length: &str,
) -> Vec<(String, String)> {
    let mut flat = Vec::new();
    for (name, kind) in parameters {
        let referred = kind.strip_prefix("&mut ").or(kind.strip_prefix('&'));
        let slice = referred.and_then(|r| r.strip_prefix('[')).and_then(|r| r.strip_suffix(']'));
        let kind = referred.map_or(kind.clone(), |r| pointer(slice.unwrap_or(r), kind.starts_with("&mut ")));
        flat.push((name.clone(), kind));
        if slice.is_some() {
            flat.push((format!("{name}_length"), length.to_string()));
        }
    }
    flat
}

fn c_type(rattle: &str) -> String {
    match rattle.split_at(1) {
        ("u", bits) => format!("uint{bits}_t"),
        ("i", bits) => format!("int{bits}_t"),
        ("f", "64") => "double".to_string(),
        _ => panic!("no type of C for {rattle}"),
    }
}

#[test]
fn declarations_agree() {
    // Nothing else holds what C and Rust declare to the source of the library.
    let source = in_one_line(&read("crates/tile_c/src/lib.rt"));
    let header = in_one_line(&read("crates/tile_c/include/mattuliyan.h"));
    let wrapper = in_one_line(&read("rust/mattuliyan/src/lib.rs"));
    let exported = between(&source, "#[unsafe(no_mangle)] pub extern \"C\" fn ", " ensures ");
    assert_eq!(exported.len(), 17);

    let mut in_c = Vec::new();
    let mut in_rust = Vec::new();
    for signature in exported {
        let (name, parameters) = parameters(signature);
        let pointer = |kind: &str, mutable| format!("{}{} *", if mutable { "" } else { "const " }, c_type(kind));
        let list = flat(&parameters, pointer, "size_t");
        let list: Vec<String> = list
            .iter()
            .map(|(name, kind)| {
                if kind.ends_with('*') {
                    format!("{kind}{name}")
                } else {
                    format!("{} {name}", if kind == "size_t" { kind.clone() } else { c_type(kind) })
                }
            })
            .collect();
        in_c.push(format!("{name}({})", list.join(", ")));

        let pointer = |kind: &str, mutable| format!("*{} {kind}", if mutable { "mut" } else { "const" });
        let list = flat(&parameters, pointer, "usize");
        let list: Vec<String> = list.iter().map(|(name, kind)| format!("{name}: {kind}")).collect();
        in_rust.push(format!("{name}({}) -> u32", list.join(", ")));
    }
    // each may list them in an order of its own
    let sorted = |mut list: Vec<String>| {
        list.sort();
        list
    };
    let (in_c, in_rust) = (sorted(in_c), sorted(in_rust));
    let declared = between(&header, "uint32_t mattuliyan_", ";").iter().map(|d| format!("mattuliyan_{d}")).collect();
    assert_eq!(sorted(declared), in_c);
    let block = wrapper.split("extern \"C\" {").nth(1).unwrap();
    let declared = between(block.split(" } }").next().unwrap(), "pub fn ", ";").iter().map(|d| d.to_string()).collect();
    assert_eq!(sorted(declared), in_rust);

    let symbols = run(Command::new("nm").args([
        "--extern-only",
        "--defined-only",
        "--format=just-symbols",
        env!("TILE_C_ARCHIVE"),
    ]));
    let symbols = symbols.lines().filter(|line| !line.is_empty() && !line.ends_with(':'));
    let names = in_c.iter().map(|d| d.split('(').next().unwrap().to_string()).collect();
    assert_eq!(sorted(symbols.map(str::to_string).collect()), sorted(names));
}

/// What a C program of this folder prints.
fn printed_in_c(name: &str) -> String {
    let program = Path::new(env!("CARGO_TARGET_TMPDIR")).join(name);
    let source = Path::new(env!("CARGO_MANIFEST_DIR")).join("tests").join(name).with_extension("c");
    run(Command::new("cc").args(["-std=c99", "-Wall", "-Wextra", "-Wpedantic", "-Werror", "-I"]).args([
        &include(),
        &source,
        Path::new(env!("TILE_C_ARCHIVE")),
        Path::new("-o"),
        &program,
    ]));
    run(&mut Command::new(program))
}

#[test]
fn answers_in_c() {
    let answers = "3 0 7\n12 0 7\n0 3 4 0 4 0\n0 3 384 299 384 299\n8 7\n0 1366 170 0 0\n7 7\n0 1 0 0 0\n8 7\n0 0 1 0 0 0\n10 0\n0 170\n";
    // number, record and table after each; 2^40 is 1,099,511,627,776
    let put = [
        "12 3 384 299 384 299",
        "5 1022 384 299 384 299",
        "0 6 388 299 388 299",
        "9 6 1099511627777 299 388 299",
        "9 6 1099511627773 299 388 299",
    ];
    let taken = [
        "3 6 388 299 388 299",
        "0 3 384 299 384 299",
        "9 3 384 299 -1099511627777 299",
        "9 3 384 299 -1099511627393 299",
        "0 0 0 0 0 0",
        "13 0 0 0 0 0",
    ];
    let on_sheet = [
        "14 0 7 7 7 7",
        "15 0 7 7 7 7",
        "0 3 0 0 0 0",
        "0 3 683 171 683 171",
        "0 3 384 299 384 299",
        "15 3 384 299 384 299",
        "0 6 388 299 388 299",
        "14 6 388 299 388 299",
        "0 3 4 0 4 0",
        "13 2 4 0 4 0",
    ];
    // 256 i (i + 1) for each of the 8 chords is 43,008, and 65,536 for the lower edge; all of it is in the tile's first pixel
    let with_curves = [
        "16 0 7 7 7 7",
        "16 0 7 7 7 7",
        "3 0 7 7 7 7",
        "0 10 108544 108544 108544 108544",
        "0 10 108544 108544 108544 108544",
        "0 10 108544 108544 108544 108544",
        "5 1015 108544 108544 108544 108544",
        "0 20 217088 217088 217088 217088",
        "0 10 108544 108544 108544 108544",
        "0 0 0 0 0 0",
        "13 9 0 0 0 0",
        "15 0 0 0 0 0",
        "0 10 0 0 0 0",
        "0 10 108544 108544 108544 108544",
        "0 20 217088 217088 217088 217088",
        "0 10 108544 108544 108544 108544",
        "16 10 108544 108544 108544 108544",
        "14 10 108544 108544 108544 108544",
    ];
    let tiles = put.into_iter().chain(taken).chain(on_sheet).chain(with_curves).map(|line| format!("{line}\n"));
    assert_eq!(printed_in_c("header"), answers.to_string() + &tiles.collect::<String>());
}

#[test]
fn no_entry_is_read_after_the_first_out_of_range() {
    let printed = printed_in_c("reads");
    assert_eq!(printed.lines().count(), 12 * 16);
    for line in printed.lines() {
        // where the last entry of all is in range, there is none after it to be read
        let last = [" 4095 of 4096:", " 1023 of 1024:"].iter().any(|last| line.contains(last));
        let expected = if last { "9 0" } else { "9 x" };
        assert_eq!(line.split_once(": ").map(|(_, answers)| answers), Some(expected), "{line}");
    }
}

#[test]
fn compiles_as_cpp() {
    let header = include().join("mattuliyan.h");
    run(Command::new("c++").args(["-x", "c++", "-Wall", "-Wextra", "-Werror", "-fsyntax-only"]).arg(header));
}
