//! What the page says about where it was measured: the processor and the compilers, and nothing that names the machine.

use crate::others::LIBRARIES;
use std::fs;
use std::path::Path;
use std::process::Command;

pub struct Machine {
    pub processor: String,
    /// How many of these the system has.
    pub processors: usize,
    pub compilers: Vec<String>,
}

impl Machine {
    pub fn here() -> Machine {
        let cpuinfo = fs::read_to_string("/proc/cpuinfo").unwrap_or_default();
        let (processor, processors) = processor(&cpuinfo);
        let rattle = rattle().unwrap_or_else(|| "Rattle of unknown version".into());
        let rustc = option_env!("BENCH_RUSTC").unwrap_or("rustc of unknown version");
        let mut compilers = vec![rattle, rustc.to_string()];
        compilers.extend(LIBRARIES.into_iter().filter_map(|library| library.compiler()).map(str::to_string));
        Machine { processor, processors, compilers }
    }
}

/// What the toolchain that proved the library calls itself.
fn rattle() -> Option<String> {
    let output = Command::new("rt").arg("version").output().ok()?;
    Some(String::from_utf8(output.stdout).ok()?.lines().next()?.to_string())
}

/// The commit that is checked out where a library lies.
pub fn commit(archive: &Path) -> String {
    let folder = archive.parent().filter(|folder| !folder.as_os_str().is_empty()).unwrap_or(Path::new("."));
    let described =
        Command::new("git").arg("-C").arg(folder).args(["describe", "--always", "--dirty", "--exclude=*"]).output();
    let described = described.ok().filter(|output| output.status.success());
    match described.and_then(|output| String::from_utf8(output.stdout).ok()) {
        Some(name) => format!("commit {}", name.trim()),
        None => "an unknown commit".into(),
    }
}

/// The name that the processor gives itself, which may be no more than a family's, with the numbers that tell its kind; and how many the
/// system has.
fn processor(cpuinfo: &str) -> (String, usize) {
    let values = |key: &str| -> Vec<String> {
        let value = |line: &str| Some(line.strip_prefix(key)?.trim_start().strip_prefix(':')?.trim().to_string());
        cpuinfo.lines().filter_map(value).collect()
    };
    let names = values("model name");
    let mut text = names.first().cloned().unwrap_or_else(|| "unknown processor".into());
    for (key, word) in [("cpu family", "family"), ("model", "model"), ("stepping", "stepping")] {
        if let Some(number) = values(key).first() {
            text += &format!(", {word} {number}");
        }
    }
    (text, names.len())
}

#[cfg(test)]
mod tests {
    use super::*;
    use crate::folder::Folder;

    #[test]
    fn a_library_has_the_commit_of_its_checkout() {
        assert_eq!(commit(Path::new("/no-such-folder/libtile_c.a")), "an unknown commit");
        let Folder(folder) = &Folder::new().unwrap();
        let git = |words: &[&str]| Command::new("git").arg("-C").arg(folder).args(words).status();
        let made = git(&["init", "--quiet"]).and_then(|_| {
            git(&["-c", "user.name=a", "-c", "user.email=a@b", "commit", "--quiet", "--allow-empty", "--message=a"])
        });
        let named = commit(&folder.join("libtile_c.a"));
        match made {
            Ok(status) => assert!(status.success() && named.starts_with("commit "), "{named}"),
            Err(_) => println!("git is not installed; a commit is not looked for"),
        }
    }

    #[test]
    fn processors_are_counted() {
        let one = "cpu family\t: 6\nmodel\t\t: 207\nmodel name\t: Some CPU @ 2GHz\nstepping\t: 2\n";
        assert_eq!(processor(&one.repeat(2)), ("Some CPU @ 2GHz, family 6, model 207, stepping 2".into(), 2));
        assert_eq!(processor(""), ("unknown processor".into(), 0));
    }
}
