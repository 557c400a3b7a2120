//! Buffers that lie flush against an unmapped page, before them or behind them, so that one byte
//! read or written out of range stops the host with a signal.

use std::ffi::{c_char, c_int, c_long, c_uint, c_void};

const PAGE: usize = 4096;
const PROT_NONE: c_int = 0;
const PROT_READ: c_int = 1;
const PROT_WRITE: c_int = 2;
const MAP_SHARED: c_int = 1;
const MAP_PRIVATE: c_int = 2;
const MAP_FIXED: c_int = 0x10;
const MAP_ANONYMOUS: c_int = 0x20;
const MAP_NORESERVE: c_int = 0x4000;

extern "C" {
    fn mmap(
        at: *mut c_void,
        n: usize,
        prot: c_int,
        flags: c_int,
        fd: c_int,
        from: c_long,
    ) -> *mut c_void;
    fn mprotect(at: *mut c_void, n: usize, prot: c_int) -> c_int;
    fn memfd_create(name: *const c_char, flags: c_uint) -> c_int;
    fn ftruncate(fd: c_int, n: c_long) -> c_int;
    fn close(fd: c_int) -> c_int;
    fn munmap(at: *mut c_void, n: usize) -> c_int;
}

/// The side of a buffer on which an unmapped page begins at once.
#[derive(Clone, Copy, Debug, PartialEq, Eq)]
pub enum Edge {
    Behind,
    Before,
}

pub const EDGES: [Edge; 2] = [Edge::Behind, Edge::Before];

/// Address space that may not be touched.
fn unmapped(length: usize) -> *mut u8 {
    let flags = MAP_PRIVATE | MAP_ANONYMOUS | MAP_NORESERVE;
    // SAFETY: a new mapping at an address of the system's choice touches no other memory.
    let at = unsafe { mmap(std::ptr::null_mut(), length, PROT_NONE, flags, -1, 0) };
    assert!(at as isize != -1, "no address space for {length} bytes");
    at.cast()
}

fn allow_writes(at: *mut u8, length: usize) {
    // SAFETY: the callers hand on whole pages of a mapping that they have just made.
    let status = unsafe { mprotect(at.cast(), length, PROT_READ | PROT_WRITE) };
    assert!(status == 0, "mprotect of {length} bytes");
}

/// Some mapped pages between two unmapped ones.
struct Region {
    /// Where the library finds the bytes.
    lent: *mut u8,
    /// Where the host writes and reads them; the same place, but for a region lent read-only.
    own: *mut u8,
    capacity: usize,
}

impl Region {
    fn writable(capacity: usize) -> Region {
        // SAFETY: the place is inside the address space just taken.
        let lent = unsafe { unmapped(capacity + 2 * PAGE).add(PAGE) };
        allow_writes(lent, capacity);
        Region { lent, own: lent, capacity }
    }

    /// A region that the library may only read: the same memory is mapped a second time for the
    /// host.
    fn read_only(capacity: usize) -> Region {
        // SAFETY: the name ends in 0; the new mapping lies in the middle of address space just
        // taken, and the second one where the system puts it.
        unsafe {
            let file = memfd_create(c"script".as_ptr(), 0);
            assert!(file >= 0 && ftruncate(file, capacity as c_long) == 0, "memfd_create");
            let lent = unmapped(capacity + 2 * PAGE).add(PAGE);
            let fixed = MAP_SHARED | MAP_FIXED;
            let at = mmap(lent.cast(), capacity, PROT_READ, fixed, file, 0);
            assert!(at == lent.cast(), "mmap for reading");
            let both = PROT_READ | PROT_WRITE;
            let own = mmap(std::ptr::null_mut(), capacity, both, MAP_SHARED, file, 0);
            assert!(own as isize != -1, "mmap for writing");
            close(file);
            Region { lent, own: own.cast(), capacity }
        }
    }
}

impl Drop for Region {
    fn drop(&mut self) {
        // SAFETY: these are the whole mappings of this region, and no borrow outlives it.
        unsafe {
            munmap(self.lent.sub(PAGE).cast(), self.capacity + 2 * PAGE);
            if self.own != self.lent {
                munmap(self.own.cast(), self.capacity);
            }
        }
    }
}

/// A buffer to lend: a region of one page, in which 4,096 bytes touch both unmapped pages, and a
/// large one for all that is longer.
pub struct Buffer {
    regions: [Region; 2],
    region: usize,
    offset: usize,
    length: usize,
}

/// The bytes that a buffer can hold.
pub const CAPACITY: usize = 128 * PAGE;

impl Buffer {
    pub fn writable() -> Buffer {
        Buffer::over([Region::writable(PAGE), Region::writable(CAPACITY)])
    }

    pub fn read_only() -> Buffer {
        Buffer::over([Region::read_only(PAGE), Region::read_only(CAPACITY)])
    }

    fn over(regions: [Region; 2]) -> Buffer {
        Buffer { regions, region: 0, offset: 0, length: 0 }
    }

    /// Puts these bytes at the edge; the buffer is as long as they are.
    pub fn lay(&mut self, bytes: &[u8], edge: Edge) {
        assert!(bytes.len() <= CAPACITY, "{} bytes are too many for a buffer", bytes.len());
        self.region = if bytes.len() <= PAGE { 0 } else { 1 };
        self.length = bytes.len();
        let region = &self.regions[self.region];
        self.offset = match edge {
            Edge::Behind => region.capacity - bytes.len(),
            Edge::Before => 0,
        };
        // SAFETY: offset + length is at most the capacity, and nothing borrows the region now.
        unsafe { region.own.add(self.offset).copy_from(bytes.as_ptr(), bytes.len()) }
    }

    pub fn bytes(&self) -> &[u8] {
        let region = &self.regions[self.region];
        // SAFETY: the range was laid; it is written by `lay` and by the library only, and both
        // take the buffer as mutable.
        unsafe { std::slice::from_raw_parts(region.own.add(self.offset), self.length) }
    }

    /// What is lent to the library: a pointer and a length. The pointer is valid for the length,
    /// for reading only if the buffer is read-only.
    pub fn lend(&mut self) -> (*mut u8, usize) {
        // SAFETY: the offset is at most the capacity.
        (unsafe { self.regions[self.region].lent.add(self.offset) }, self.length)
    }
}

/// Bytes that the library may only read, close to either end of two mapped pages.
pub struct Window {
    region: Region,
    offset: usize,
    length: usize,
}

impl Window {
    pub fn new() -> Window {
        Window { region: Region::read_only(2 * PAGE), offset: 0, length: 0 }
    }

    /// Makes the window so many bytes of FF with so many bytes between it and the edge, and sets every
    /// byte around it.
    pub fn lay(&mut self, length: usize, edge: Edge, gap: usize, around: u8) {
        let capacity = self.region.capacity;
        assert!(length + gap <= capacity, "{length} bytes and {gap} are too many for a window");
        self.length = length;
        self.offset = match edge {
            Edge::Behind => capacity - gap - length,
            Edge::Before => gap,
        };
        // SAFETY: offset + length is at most the capacity, and nothing borrows the region now.
        unsafe {
            self.region.own.write_bytes(around, capacity);
            self.region.own.add(self.offset).write_bytes(0xFF, length);
        }
    }

    /// Sets one byte of it.
    pub fn set(&mut self, at: usize, byte: u8) {
        assert!(at < self.length);
        // SAFETY: the place is inside the window, and nothing borrows the region now.
        unsafe { self.region.own.add(self.offset + at).write(byte) }
    }

    pub fn bytes(&self) -> &[u8] {
        // SAFETY: the range is inside the region, and only `lay` and `set` write to it.
        unsafe { std::slice::from_raw_parts(self.region.own.add(self.offset), self.length) }
    }

    /// The byte behind it, if one is mapped.
    pub fn after(&self) -> Option<u8> {
        let behind = self.offset + self.length;
        // SAFETY: the place is inside the region.
        (behind < self.region.capacity).then(|| unsafe { *self.region.own.add(behind) })
    }

    /// What is lent to the library, for reading only.
    pub fn lend(&self) -> (*const u8, usize) {
        // SAFETY: the offset is at most the capacity.
        (unsafe { self.region.lent.add(self.offset) }, self.length)
    }
}

/// A buffer of more than 2^32 bytes, of which only the first page takes memory when it is written.
pub struct Huge {
    start: *mut u8,
    length: usize,
}

impl Huge {
    /// A buffer of this length that holds 00.
    pub fn new(length: usize) -> Huge {
        let start = unmapped(length);
        allow_writes(start, length);
        Huge { start, length }
    }

    pub fn lend(&mut self) -> (*mut u8, usize) {
        (self.start, self.length)
    }

    /// Its first bytes.
    pub fn first(&mut self, n: usize) -> &mut [u8] {
        assert!(n <= self.length);
        // SAFETY: the mapping is that long, private and borrowed by nobody else.
        unsafe { std::slice::from_raw_parts_mut(self.start, n) }
    }
}

impl Drop for Huge {
    fn drop(&mut self) {
        // SAFETY: this is the whole mapping, and no borrow outlives it.
        unsafe { munmap(self.start.cast(), self.length) };
    }
}

/// What a child does to show that the guards work: touches one byte past the edge of a buffer of
/// this length, or with `inside` the byte inside next to it. With `write` it stores to it too.
pub fn touch(buffer: &mut Buffer, length: usize, edge: Edge, inside: bool, write: bool) -> u8 {
    buffer.lay(&vec![0x5A; length], edge);
    let (start, length) = buffer.lend();
    let place = match (edge, inside) {
        (Edge::Behind, true) => start.wrapping_add(length - 1),
        (Edge::Behind, false) => start.wrapping_add(length),
        (Edge::Before, true) => start,
        (Edge::Before, false) => start.wrapping_sub(1),
    };
    // SAFETY: none outside: the fault is what the caller waits for, in a process of its own.
    unsafe {
        if write {
            place.write_volatile(0xA5);
        }
        place.read_volatile()
    }
}
