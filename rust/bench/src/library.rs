//! Calls as C has them, of the library as it is now and of one that was made before. For one cell both are opened alike, so that neither gains by
//! how it is called.

use crate::folder::Folder;
use crate::inputs::Outline;
use std::ffi::{c_char, c_int, c_void, CStr, CString};
use std::path::Path;
use std::process::Command;

type Build = unsafe extern "C" fn(
    side: u32,
    points: *const i64,
    points_length: usize,
    counts: *const u32,
    counts_length: usize,
    table: *mut i64,
    table_length: usize,
    edges: *mut u32,
) -> u32;

type Greys = unsafe extern "C" fn(
    side: u32,
    level: u32,
    table: *const i64,
    table_length: usize,
    picture: *mut u8,
    picture_length: usize,
) -> u32;

type Cell = unsafe extern "C" fn(
    side: u32,
    level: u32,
    cx: u32,
    cy: u32,
    table: *const i64,
    table_length: usize,
    figure: *mut i64,
) -> u32;

// POSIX
unsafe extern "C" {
    fn dlopen(file: *const c_char, flags: c_int) -> *mut c_void;
    fn dlsym(library: *mut c_void, name: *const c_char) -> *mut c_void;
    fn dlerror() -> *const c_char;
}

/// All that a library calls is looked up at once, and not at a first call that is measured.
const RTLD_NOW: c_int = 2;

/// The archive that is linked into this program.
pub const ARCHIVE: &str = env!("BENCH_ARCHIVE");

/// An opened library.
pub struct Opened {
    build: Build,
    greys: Greys,
    cell: Cell,
}

impl Opened {
    /// Opens `libtile_c.a` as rt made it, by `rt lib` today. It is never closed.
    pub fn open(archive: &Path) -> Result<Opened, String> {
        let folder = Folder::new()?;
        let shared = folder.0.join("libtile_c.so");
        let opened = make_shared(archive, &shared).and_then(|()| open_shared(&shared));
        opened.map_err(|message| format!("{}: {message}", archive.display()))
    }

    /// The number that is answered, and the edge count.
    pub fn build(&self, outline: &Outline, table: &mut [i64]) -> (u32, u32) {
        let Outline { side, points, counts } = outline;
        // no edge count, so that a call that did not write one would show
        let mut edges = u32::MAX;
        // SAFETY: slices of Rust are aligned and of their lengths, and those that are written overlap no other.
        let number = unsafe {
            (self.build)(
                *side,
                points.as_ptr(),
                points.len(),
                counts.as_ptr(),
                counts.len(),
                table.as_mut_ptr(),
                table.len(),
                &mut edges,
            )
        };
        (number, edges)
    }

    /// The number that is answered.
    pub fn greys(&self, side: u32, level: u32, table: &[i64], picture: &mut [u8]) -> u32 {
        // SAFETY: as in `build`.
        unsafe { (self.greys)(side, level, table.as_ptr(), table.len(), picture.as_mut_ptr(), picture.len()) }
    }

    /// The number that is answered, and the figure.
    pub fn cell(&self, side: u32, level: u32, cx: u32, cy: u32, table: &[i64]) -> (u32, i64) {
        // no figure, so that a call that did not write one would show
        let mut figure = i64::MAX;
        // SAFETY: as in `build`.
        let number = unsafe { (self.cell)(side, level, cx, cy, table.as_ptr(), table.len(), &mut figure) };
        (number, figure)
    }
}

fn make_shared(archive: &Path, shared: &Path) -> Result<(), String> {
    let mut linking = Command::new("cc");
    linking.args(["-shared", "-Wl,-Bsymbolic", "-Wl,--whole-archive"]).arg(archive);
    let output = linking.args(["-Wl,--no-whole-archive", "-o"]).arg(shared).output();
    let output = output.map_err(|error| format!("cc does not start: {error}"))?;
    if output.status.success() {
        Ok(())
    } else {
        Err(format!("cc makes no shared library of it\n{}", String::from_utf8_lossy(&output.stderr)))
    }
}

fn open_shared(shared: &Path) -> Result<Opened, String> {
    let file = CString::new(shared.as_os_str().as_encoded_bytes()).map_err(|error| error.to_string())?;
    // SAFETY: the names are strings of C, and the functions of these names have had these types since there have been any; tests below
    // call them.
    unsafe {
        let library = dlopen(file.as_ptr(), RTLD_NOW);
        if library.is_null() {
            return Err(last_error());
        }
        Ok(Opened {
            build: std::mem::transmute::<*mut c_void, Build>(function(library, c"mattuliyan_build")?),
            greys: std::mem::transmute::<*mut c_void, Greys>(function(library, c"mattuliyan_greys")?),
            cell: std::mem::transmute::<*mut c_void, Cell>(function(library, c"mattuliyan_cell")?),
        })
    }
}

/// Where a function of an opened library is.
fn function(library: *mut c_void, name: &CStr) -> Result<*mut c_void, String> {
    // SAFETY: the library is open, and the name is a string of C.
    let function = unsafe { dlsym(library, name.as_ptr()) };
    if function.is_null() {
        Err(last_error())
    } else {
        Ok(function)
    }
}

fn last_error() -> String {
    // SAFETY: what it answers is a string of C, or nothing.
    unsafe {
        let message = dlerror();
        if message.is_null() {
            return "it cannot be opened".into();
        }
        CStr::from_ptr(message).to_string_lossy().into_owned()
    }
}

/// What a library of another kind answers: neither that it is done, nor a refusal.
#[cfg(test)]
pub const ANOTHER: u32 = 77;

/// Calls something with a library that answers this to every call.
#[cfg(test)]
pub fn with_another<T>(run: impl FnOnce(&Path) -> T) -> T {
    let folder = Folder::new().unwrap();
    let (source, object) = (folder.0.join("another.c"), folder.0.join("another.o"));
    let function = |name| format!("unsigned mattuliyan_{name}(void) {{ return {ANOTHER}; }}\n");
    std::fs::write(&source, ["build", "greys", "cell"].map(function).concat()).unwrap();
    let made = Command::new("cc").args(["-fPIC", "-c", "-o"]).args([&object, &source]).status();
    assert!(made.unwrap().success());
    run(&object)
}

#[cfg(test)]
mod tests {
    use super::*;
    use std::fs;

    #[test]
    fn an_opened_library_answers_as_the_linked_one() {
        let library = Opened::open(Path::new(ARCHIVE)).unwrap();
        // 01's letter F, cell by cell, and a call that is refused
        let table = [384, 299, 384, 299];
        for (cx, cy) in [(0, 0), (1, 0), (0, 1), (1, 1)] {
            assert_eq!(library.cell(2, 1, cx, cy, &table), (0, mattuliyan::cell(2, 1, cx, cy, &table).unwrap()));
        }
        assert_eq!(library.cell(2, 1, 2, 0, &table), (10, 0));
        assert_eq!(library.cell(2, 1, 1, 0, &table), (0, 170));

        let outline = Outline { side: 2, points: vec![0, 0, 384, 1, 0, 1], counts: vec![3] };
        let mut built = [7; 4];
        assert_eq!((library.build(&outline, &mut built), built), ((0, 3), table));
        assert_eq!(library.build(&outline, &mut built[..3]), (2, 0));
        // E, whose greys are not all white
        let (table, mut picture) = ([262144, 131072, 131072, 0], [7; 4]);
        assert_eq!((library.greys(2, 1, &table, &mut picture), picture), (0, [255, 128, 128, 0]));
        assert_eq!(library.greys(2, 1, &table, &mut picture[..3]), 8);
    }

    #[test]
    fn two_that_are_opened_are_two() {
        let ours = Opened::open(Path::new(ARCHIVE)).unwrap();
        let another = with_another(Opened::open).unwrap();
        assert_eq!((ours.cell(1, 0, 0, 0, &[5]), another.cell(1, 0, 0, 0, &[5]).0), ((0, 5), ANOTHER));
    }

    #[test]
    fn what_is_no_archive_is_told() {
        let folder = Folder::new().unwrap();
        let path = folder.0.join("archive");
        fs::write(&path, "no archive").unwrap();
        assert!(Opened::open(&path).is_err_and(|message| message.contains("cc makes no shared library of it")));
        assert!(Opened::open(&folder.0.join("none")).is_err());
    }
}
