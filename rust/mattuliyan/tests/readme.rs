//! README.md's example of Rust is the one in the crate's documentation, which is compiled and run.
const README: &str = include_str!("../../../README.md");
const CRATE: &str = include_str!("../src/lib.rs");

#[test]
fn readme_has_the_documentations_example() {
    let example = CRATE.split("//! ```\n").nth(1).expect("the crate's documentation has an example");
    // four blanks before a line make it code; an empty line has none
    let indented = |line: &str| match line.strip_prefix("//!").expect("a line of documentation") {
        "" => "\n".to_string(),
        text => format!("   {text}\n"),
    };
    let code: String = example.lines().map(indented).collect();
    assert!(code.contains("fn main() -> Result<(), Box<dyn Error>> {"));
    assert!(README.contains(&code), "README.md has not\n{code}");
}
