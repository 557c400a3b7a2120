//! The calls that the benchmark makes, under one signature for all three versions.

use crate::plain::{self, Part, Start, Whole};
use std::hint::black_box;

type ErasedFn = unsafe extern "C" fn(*const u8, usize) -> bool;
type PartFn = unsafe extern "C" fn(*const u8, usize, *const u8, usize, u32, u32) -> Part;
type CopyFn = unsafe extern "C" fn(*const u8, usize, *const u8, usize, u32, *mut u8, usize) -> u32;
type BeginFn =
    unsafe extern "C" fn(*const u8, usize, *const u8, usize, u32, *const u8, usize) -> Start;
type StepFn = unsafe extern "C" fn(
    u32, bool, u32, u32, u32, *mut u32, *mut u8, usize, *mut u8, usize, *const u8, usize,
) -> u32;
type SaveFn =
    unsafe extern "C" fn(*mut u8, usize, *mut u8, usize, u32, *const u8, usize) -> Whole;
type FormatFn = unsafe extern "C" fn(*mut u8, usize, *mut u8, usize) -> Whole;

/// A save that is walked: what its caller and its beginning know of it.
#[derive(Clone, Copy)]
pub struct Walk {
    pub start: Start,
    pub page: u32,
    pub offset: u32,
    pub length: u32,
    pub place: u32,
}

/// What fretgalaxy_replay returns (include/fretgalaxy.h).
#[repr(C)]
pub struct Report {
    pub status: u32,
    pub place: usize,
}

pub type ReplayFn = unsafe extern "C" fn(
    *mut u8, usize, *mut u8, usize, *const u8, usize, *mut u8, usize,
) -> Report;

/// Declares the seven calls of a version that is linked.
macro_rules! linked {
    ($erased:ident $part:ident $copy:ident $begin:ident $step:ident $save:ident $format:ident) => {
        unsafe extern "C" {
            fn $erased(page: *const u8, p: usize) -> bool;
            fn $part(
                left: *const u8, p: usize, right: *const u8, q: usize, offset: u32, length: u32,
            ) -> Part;
            fn $copy(
                left: *const u8, p: usize, right: *const u8, q: usize, offset: u32, out: *mut u8,
                n: usize,
            ) -> u32;
            fn $begin(
                left: *const u8, p: usize, right: *const u8, q: usize, offset: u32,
                data: *const u8, n: usize,
            ) -> Start;
            fn $step(
                line: u32, erased: bool, page: u32, offset: u32, kept: u32, place: *mut u32,
                left: *mut u8, p: usize, right: *mut u8, q: usize, data: *const u8, n: usize,
            ) -> u32;
            fn $save(
                left: *mut u8, p: usize, right: *mut u8, q: usize, offset: u32, data: *const u8,
                n: usize,
            ) -> Whole;
            fn $format(left: *mut u8, p: usize, right: *mut u8, q: usize) -> Whole;
        }
    };
}

linked! { bench_erased bench_part bench_copy bench_begin bench_step bench_save bench_format }
linked! { c_erased c_part c_copy c_begin c_step c_save c_format }

unsafe extern "C" {
    fn fretgalaxy_replay(
        left: *mut u8, p: usize, right: *mut u8, q: usize, script: *const u8, s: usize,
        out: *mut u8, n: usize,
    ) -> Report;
}

/// One of the three versions. The methods take slices, so no caller can lend too little.
#[derive(Clone, Copy)]
pub struct Library {
    pub name: &'static str,
    erased: ErasedFn,
    part: PartFn,
    copy: CopyFn,
    begin: BeginFn,
    step: StepFn,
    save: SaveFn,
    format: FormatFn,
}

// SAFETY, for all methods: each pointer comes from a slice with its own length, and slices that are
// written are borrowed mutably, so nothing overlaps.
impl Library {
    pub fn erased(&self, page: &[u8]) -> bool {
        unsafe { (self.erased)(page.as_ptr(), page.len()) }
    }

    pub fn part(&self, left: &[u8], right: &[u8], offset: u32, length: u32) -> Part {
        unsafe {
            (self.part)(left.as_ptr(), left.len(), right.as_ptr(), right.len(), offset, length)
        }
    }

    pub fn copy(&self, left: &[u8], right: &[u8], offset: u32, out: &mut [u8]) -> u32 {
        let (l, r) = (left.as_ptr(), right.as_ptr());
        unsafe { (self.copy)(l, left.len(), r, right.len(), offset, out.as_mut_ptr(), out.len()) }
    }

    /// The beginning of a save.
    pub fn begin(&self, left: &[u8], right: &[u8], offset: u32, data: &[u8]) -> Start {
        let (l, r) = (left.as_ptr(), right.as_ptr());
        unsafe { (self.begin)(l, left.len(), r, right.len(), offset, data.as_ptr(), data.len()) }
    }

    /// The walk that a beginning gives, whatever its number.
    pub fn walk_of(&self, left: &[u8], right: &[u8], offset: u32, data: &[u8]) -> Walk {
        let start = self.begin(left, right, offset, data);
        Walk { start, page: left.len() as u32, offset, length: data.len() as u32, place: 0 }
    }

    /// One step of a save; its place moves on where the step is made.
    pub fn step(&self, w: &mut Walk, left: &mut [u8], right: &mut [u8], data: &[u8]) -> u32 {
        let (l, p, r, q) = (left.as_mut_ptr(), left.len(), right.as_mut_ptr(), right.len());
        let (d, n) = (data.as_ptr(), data.len());
        let (line, erased, place) = (w.start.line as u32, w.start.erased, &mut w.place);
        unsafe { (self.step)(line, erased, w.page, w.offset, w.length, place, l, p, r, q, d, n) }
    }

    pub fn save(&self, left: &mut [u8], right: &mut [u8], offset: u32, data: &[u8]) -> Whole {
        let (l, p, r, q) = (left.as_mut_ptr(), left.len(), right.as_mut_ptr(), right.len());
        unsafe { (self.save)(l, p, r, q, offset, data.as_ptr(), data.len()) }
    }

    pub fn format(&self, left: &mut [u8], right: &mut [u8]) -> Whole {
        let (l, p, r, q) = (left.as_mut_ptr(), left.len(), right.as_mut_ptr(), right.len());
        unsafe { (self.format)(l, p, r, q) }
    }

    /// This version with whole walks that do nothing: what the calls alone need.
    pub fn idle(self) -> Library {
        Library { save: no_save, format: no_format, ..self }
    }
}

unsafe extern "C" fn no_save(
    _: *mut u8, _: usize, _: *mut u8, _: usize, _: u32, _: *const u8, _: usize,
) -> Whole {
    Whole::default()
}

unsafe extern "C" fn no_format(_: *mut u8, _: usize, _: *mut u8, _: usize) -> Whole {
    Whole::default()
}

/// The proved library, plain Rust, plain C.
pub fn libraries() -> [Library; 3] {
    black_box([
        Library {
            name: "library",
            erased: bench_erased,
            part: bench_part,
            copy: bench_copy,
            begin: bench_begin,
            step: bench_step,
            save: bench_save,
            format: bench_format,
        },
        Library {
            name: "plain Rust",
            erased: plain::rust_erased,
            part: plain::rust_part,
            copy: plain::rust_copy,
            begin: plain::rust_begin,
            step: plain::rust_step,
            save: plain::rust_save,
            format: plain::rust_format,
        },
        Library {
            name: "plain C",
            erased: c_erased,
            part: c_part,
            copy: c_copy,
            begin: c_begin,
            step: c_step,
            save: c_save,
            format: c_format,
        },
    ])
}

/// The erased test alone, of one version.
#[derive(Clone, Copy)]
pub struct ErasedTest {
    pub name: &'static str,
    call: ErasedFn,
}

impl ErasedTest {
    pub fn answer(&self, page: &[u8]) -> bool {
        // SAFETY: the pointer and the length are those of a slice.
        unsafe { (self.call)(page.as_ptr(), page.len()) }
    }
}

/// The library's erased test; plain Rust byte by byte, as all of plain.rs has it; plain C; and plain Rust
/// eight bytes at a time, three ways.
pub fn erased_tests() -> [ErasedTest; 6] {
    let test = |name, call: ErasedFn| ErasedTest { name, call };
    black_box([
        test("library", bench_erased),
        test("plain Rust, byte by byte", plain::rust_erased),
        test("plain C", c_erased),
        test("plain Rust, eight by eight", plain::rust_erased_eights),
        test("plain Rust, all eights joined", plain::rust_erased_joined),
        test("plain Rust, blocks of eights", plain::rust_erased_blocks),
    ])
}

/// The replay that hosts link.
pub fn replay() -> ReplayFn {
    black_box(fretgalaxy_replay)
}
