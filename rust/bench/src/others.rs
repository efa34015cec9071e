//! FreeType and AGG, through the shims. Unsafe code is here and in `library.rs` only.

use crate::inputs::{Outline, EDGES};
use std::ffi::c_void;

#[derive(Clone, Copy, PartialEq, Debug)]
pub enum Library {
    FreeType,
    Agg,
}

pub const LIBRARIES: [Library; 2] = [Library::FreeType, Library::Agg];

impl Library {
    pub fn name(self) -> &'static str {
        match self {
            Library::FreeType => "FreeType",
            Library::Agg => "AGG",
        }
    }

    /// Where it can be had.
    pub fn debian_package(self) -> &'static str {
        match self {
            Library::FreeType => "libfreetype-dev",
            Library::Agg => "libagg-dev",
        }
    }

    /// Its functions, if it was there when this program was built.
    fn calls(self) -> Option<Calls> {
        match self {
            #[cfg(freetype)]
            Library::FreeType => Some(freetype::CALLS),
            #[cfg(agg)]
            Library::Agg => Some(agg::CALLS),
            #[allow(unreachable_patterns)] // where both are there
            _ => None,
        }
    }

    pub fn is_there(self) -> bool {
        self.calls().is_some()
    }

    /// The compiler of its shim.
    pub fn compiler(self) -> Option<&'static str> {
        match self {
            Library::FreeType => option_env!("BENCH_FREETYPE_COMPILER"),
            Library::Agg => option_env!("BENCH_AGG_COMPILER"),
        }
    }
}

/// A shim's functions, the same for each library.
#[derive(Clone, Copy)]
struct Calls {
    open: unsafe extern "C" fn() -> *mut c_void,
    close: unsafe extern "C" fn(*mut c_void),
    draw: unsafe extern "C" fn(
        handle: *mut c_void,
        points: *const i64,
        counts: *const u32,
        contours: u32,
        side: u32,
        halvings: u32,
        picture: *mut u8,
    ) -> i32,
    version: fn(*mut c_void) -> String,
}

/// An opened library: FreeType's handle, or AGG's rasteriser, which is made once and used again as its documents advise.
pub struct Rasteriser {
    calls: Calls,
    handle: *mut c_void,
}

impl Rasteriser {
    pub fn open(library: Library) -> Option<Rasteriser> {
        let calls = library.calls()?;
        // Safety: it asks nothing of its caller.
        let handle = unsafe { (calls.open)() };
        (!handle.is_null()).then_some(Rasteriser { calls, handle })
    }

    pub fn version(&self) -> String {
        (self.calls.version)(self.handle)
    }

    /// Draws the outline of a tile at one level: clears the picture, scales the points, and fills. An error is the
    /// library's own number.
    pub fn draw(&mut self, outline: &Outline, level: u32, picture: &mut [u8]) -> Result<(), i32> {
        let points = outline.edges();
        assert!(outline.counts.iter().all(|&n| n > 0) && points <= EDGES);
        assert!(outline.points.len() == 2 * points as usize);
        assert!(level <= outline.depth() && picture.len() == 1 << (2 * level));
        // Safety: the handle is open, the points are as many as the counts say and fit the shim's arrays, and the picture
        // has a byte for each pixel of the halved side.
        let error = unsafe {
            (self.calls.draw)(
                self.handle,
                outline.points.as_ptr(),
                outline.counts.as_ptr(),
                outline.counts.len() as u32,
                outline.side,
                outline.depth() - level,
                picture.as_mut_ptr(),
            )
        };
        match error {
            0 => Ok(()),
            _ => Err(error),
        }
    }
}

impl Drop for Rasteriser {
    fn drop(&mut self) {
        // Safety: opened once, and closed once, here.
        unsafe { (self.calls.close)(self.handle) }
    }
}

#[cfg(freetype)]
mod freetype {
    use super::{c_void, Calls};

    extern "C" {
        fn bench_freetype_open() -> *mut c_void;
        fn bench_freetype_close(handle: *mut c_void);
        fn bench_freetype_version(handle: *mut c_void) -> u32;
        fn bench_freetype_draw(
            handle: *mut c_void,
            points: *const i64,
            counts: *const u32,
            contours: u32,
            side: u32,
            halvings: u32,
            picture: *mut u8,
        ) -> i32;
    }

    pub const CALLS: Calls = Calls {
        open: bench_freetype_open,
        close: bench_freetype_close,
        draw: bench_freetype_draw,
        version: |handle| {
            // Safety: `Rasteriser::version` passes the handle that it opened.
            let number = unsafe { bench_freetype_version(handle) };
            format!("{}.{}.{}", number / 10_000, number / 100 % 100, number % 100)
        },
    };
}

#[cfg(agg)]
mod agg {
    use super::{c_void, Calls};

    extern "C" {
        fn bench_agg_open() -> *mut c_void;
        fn bench_agg_close(handle: *mut c_void);
        fn bench_agg_draw(
            handle: *mut c_void,
            points: *const i64,
            counts: *const u32,
            contours: u32,
            side: u32,
            halvings: u32,
            picture: *mut u8,
        ) -> i32;
    }

    pub const CALLS: Calls = Calls {
        open: bench_agg_open,
        close: bench_agg_close,
        draw: bench_agg_draw,
        // AGG does not say its version; its package does.
        version: |_| match option_env!("BENCH_AGG_PACKAGE") {
            Some(version) => format!("{version}, as pkg-config has it"),
            None => "of unknown version".into(),
        },
    };
}
