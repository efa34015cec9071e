//! How far a call reads: the program runs itself under valgrind's lackey, which writes down every load, and those from the table are counted. No entry
//! that is loaded escapes it, whatever lies beside it in memory.

use crate::cells::{Cells, Damage, DAMAGES};
use std::io::{BufRead, BufReader};
use std::ops::Range;
use std::path::Path;
use std::process::Command;
use std::{env, fs};

/// The argument, not for users, by which the program makes one call and says where its table lies.
pub const READ: &str = "--read";

/// The bytes of an entry.
const ENTRY: u64 = size_of::<i64>() as u64;

/// What a call loaded from its table.
#[derive(Clone, Copy, PartialEq, Debug, Default)]
pub struct Reads {
    pub loads: usize,
    /// How many entries from the first on have all that was loaded among them.
    pub reach: usize,
}

/// What the program does under lackey: the damage by its place.
pub fn run_read(arguments: &[String]) -> Result<(), String> {
    let damage = arguments.first().and_then(|word| DAMAGES.get(word.parse::<usize>().ok()?));
    let damage = *damage.ok_or("no such damage")?;
    let cells = Cells::new(None)?;
    let table = cells.table(damage);
    // 8 MiB at once come from the system, and nothing has read them yet; a smaller piece may have been used before
    const FRESH: usize = 1 << 20;
    let mut fresh = vec![0; FRESH];
    let copy = &mut fresh[..table.len()];
    copy.copy_from_slice(table);
    let Range { start, end } = copy.as_ptr_range();
    println!("{} {}", start as u64, end as u64);
    cells.call(damage, copy)
}

/// The reads of one call, with room for a file of lackey's in a folder.
pub fn reads(damage: Damage, folder: &Path) -> Result<Reads, String> {
    let file = folder.join("lackey.out");
    let program = env::current_exe().map_err(|error| error.to_string())?;
    let output = Command::new("valgrind")
        .args(["--tool=lackey", "--trace-mem=yes"])
        .arg(format!("--log-file={}", file.display()))
        .arg(program)
        .args([READ, &(damage as usize).to_string()])
        .output()
        .map_err(|error| error.to_string())?;
    let said = String::from_utf8_lossy(&output.stdout);
    let numbers: Vec<u64> = said.split_whitespace().filter_map(|word| word.parse().ok()).collect();
    let ([start, end], true) = (&numbers[..], output.status.success()) else {
        eprint!("{}", String::from_utf8_lossy(&output.stderr));
        return Err("valgrind's lackey failed".into());
    };
    let trace = fs::File::open(&file).map_err(|error| error.to_string())?;
    counted(BufReader::new(trace), *start..*end)
}

/// The loads from a table of numbers of 64 bits, in a trace of lackey's.
fn counted(trace: impl BufRead, table: Range<u64>) -> Result<Reads, String> {
    let mut reads = Reads::default();
    for line in trace.lines() {
        let line = line.map_err(|error| error.to_string())?;
        let Some((address, size)) = load(&line) else { continue };
        let past = address + size;
        if address < table.end && past > table.start {
            reads.loads += 1;
            reads.reach = reads.reach.max((past - table.start).div_ceil(ENTRY) as usize);
        }
    }
    Ok(reads)
}

/// Where a load begins and how many bytes it has: ` L 04222cac,8`, or ` M` where the same place is written next.
fn load(line: &str) -> Option<(u64, u64)> {
    let rest = line.strip_prefix(" L ").or(line.strip_prefix(" M "))?;
    let (address, size) = rest.split_once(',')?;
    Some((u64::from_str_radix(address, 16).ok()?, size.parse().ok()?))
}

#[cfg(test)]
mod tests {
    use super::*;

    #[test]
    fn loads_from_the_table_are_counted() {
        // before it, its first entry, written, three entries at once, read and written, past it, and an instruction
        let trace = "==1== Lackey\n L 00fff8,8\n L 010000,8\n S 010008,8\n L 010008,24\n M 010038,8\n L 010040,8\nI  010000,3\n";
        assert_eq!(counted(trace.as_bytes(), 0x10000..0x10040), Ok(Reads { loads: 3, reach: 8 }));
        assert_eq!(counted(trace.as_bytes(), 0x10000..0x10020), Ok(Reads { loads: 2, reach: 4 }));
        assert_eq!(counted(trace.as_bytes(), 0x20000..0x20040), Ok(Reads { loads: 0, reach: 0 }));
    }

    #[test]
    fn other_words_are_refused() {
        for words in [&[][..], &["3".to_string()], &["x".to_string()]] {
            assert!(run_read(words).is_err(), "{words:?}");
        }
    }
}
