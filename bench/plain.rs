//! Document 01 in plain Rust, as firmware would have it: a function a rule, and every check in every
//! step. It answers what the proved library answers; bench/main.rs compares both before it measures.

const MANAGEMENT: u32 = 4;
const LEAST_PAGE: usize = 8;
const MOST_PAGE: usize = 4096;

const SAVE: u32 = 0;
const FORMAT: u32 = 1;

pub const MADE: u32 = 0;
pub const ENDED: u32 = 1;
pub const UNFIT: u32 = 6;

/// A read of a part: how many bytes, and the first of them (0: none). It is empty on every refusal.
#[repr(C)]
#[derive(Clone, Copy, Debug, Default, PartialEq)]
pub struct Part {
    pub length: usize,
    pub first: u8,
}

/// The beginning of a save: the number (0: begun), and the line and erased-or-not that the walk then
/// keeps. What else it keeps the caller gave.
#[repr(C)]
#[derive(Clone, Copy, Debug, Default, PartialEq)]
pub struct Start {
    pub number: u8,
    pub line: u8,
    pub erased: bool,
}

/// A whole walk: the number (0: walked to its end), and how many steps were made.
#[repr(C)]
#[derive(Clone, Copy, Debug, Default, PartialEq)]
pub struct Whole {
    pub number: u32,
    pub steps: u32,
}

#[derive(Clone, Copy, PartialEq)]
enum Side {
    Left,
    Right,
}
use Side::{Left, Right};

impl Side {
    fn other(self) -> Side {
        match self {
            Left => Right,
            Right => Left,
        }
    }
}

// ---- cells and pages

fn cell_at(bytes: &[u8], at: usize) -> u16 {
    u16::from_le_bytes([bytes[at], bytes[at + 1]])
}

fn program(bytes: &mut [u8], at: usize, value: u16) -> bool {
    let kept = cell_at(bytes, at) & value;
    if kept != value {
        return false;
    }
    bytes[at..at + 2].copy_from_slice(&kept.to_le_bytes());
    true
}

fn erase(page: &mut [u8]) {
    page.fill(0xFF);
}

fn is_erased(page: &[u8]) -> bool {
    page.iter().all(|&byte| byte == 0xFF)
}

fn word_of(page: &[u8]) -> u32 {
    u32::from_le_bytes([page[0], page[1], page[2], page[3]])
}

// ---- lines

const ROWS: [(u32, u32, u32, Side); 9] = [
    (0xFFFF0000, 0xFFFFFFFF, 1, Left),
    (0xFFFF0000, 0xFF00FFFF, 2, Left),
    (0xFFFF0000, 0xFF000000, 3, Left),
    (0xFFFF0000, 0xFFFFFF00, 5, Right),
    (0xFF000000, 0xFFFFFF00, 6, Right),
    (0xFF000000, 0xFFFF0000, 7, Right),
    (0xFFFFFFFF, 0xFFFF0000, 8, Right),
    (0xFFFFFF00, 0xFFFF0000, 9, Left),
    (0xFFFFFF00, 0xFF000000, 10, Left),
];

fn line_of(left: &[u8], right: &[u8]) -> u32 {
    let words = (word_of(left), word_of(right));
    match ROWS.iter().find(|row| (row.0, row.1) == words) {
        Some(row) => row.2,
        None => 0,
    }
}

fn live_of(line: u32) -> Option<Side> {
    ROWS.iter().find(|row| row.2 == line).map(|row| row.3)
}

fn in_table(line: u32) -> bool {
    line == 0 || live_of(line).is_some()
}

// ---- numbers 1 to 5

fn pages_number(p: usize, q: usize) -> u32 {
    (p != q || p % 2 != 0 || p < LEAST_PAGE || p > MOST_PAGE) as u32
}

fn request_number(p: usize, q: usize, offset: u32, length: usize) -> u32 {
    if pages_number(p, q) != 0 {
        1
    } else if offset % 2 != 0 || length % 2 != 0 {
        2
    } else if offset < MANAGEMENT {
        3
    } else if offset as usize >= p || length > p - offset as usize {
        4
    } else {
        0
    }
}

fn read<'a>(
    left: &'a [u8],
    right: &'a [u8],
    offset: u32,
    length: usize,
) -> Result<&'a [u8], u32> {
    let number = request_number(left.len(), right.len(), offset, length);
    if number != 0 {
        return Err(number);
    }
    let live = match live_of(line_of(left, right)) {
        None => return Err(5),
        Some(Left) => left,
        Some(Right) => right,
    };
    let start = offset as usize;
    Ok(&live[start..start + length])
}

// ---- the list of steps

#[derive(Clone, Copy)]
struct Walk {
    kind: u32,
    line: u32,
    erased: bool,
    page: u32,
    offset: u32,
    length: u32,
    place: u32,
}

enum What {
    Program(u32, u16),
    Cell(u32),
    Erase,
}
use What::{Cell, Erase, Program};

/// An entry of the list: the line before it, the side, and what is done there.
struct Entry {
    line: u32,
    side: Side,
    what: What,
}

fn entry(line: u32, side: Side, what: What) -> Entry {
    Entry { line, side, what }
}

fn erased_counts(kind: u32, line: u32) -> bool {
    line == 0 || kind == SAVE && (line == 1 || line == 8)
}

fn cells_of(page: u32) -> u32 {
    (page - MANAGEMENT) / 2
}

/// How many steps a save makes before its image cells.
fn steps_before(line: u32, erased: bool) -> u32 {
    match line {
        0 => if erased { 0 } else { 3 },
        1 | 8 => if erased { 0 } else { 1 },
        3 | 7 => 1,
        2 | 6 | 10 => 2,
        _ => 3,
    }
}

fn taken_as_erased(walk: &Walk) -> bool {
    walk.erased && erased_counts(walk.kind, walk.line)
}

fn total_of(walk: &Walk) -> u32 {
    let erased = taken_as_erased(walk);
    if walk.kind == FORMAT {
        return if erased { 0 } else { 3 };
    }
    steps_before(walk.line, erased) + cells_of(walk.page) + 3
}

/// The three steps that leave two erased pages; the line before the first is the pages' own.
fn clearing(line: u32, place: u32) -> Entry {
    match place {
        0 => entry(line, Right, Program(2, 0x0000)),
        1 => entry(0, Left, Erase),
        _ => entry(0, Right, Erase),
    }
}

/// Tidying, then the erase of the page that isn't live.
fn step_before(line: u32, place: u32) -> Entry {
    let (tidying, next) = match line {
        2 => (entry(2, Right, Program(0, 0x0000)), 3),
        5 => (entry(5, Left, Program(2, 0xFF00)), 6),
        6 => (entry(6, Right, Program(0, 0x0000)), 7),
        9 => (entry(9, Right, Program(2, 0xFF00)), 10),
        10 => (entry(10, Left, Program(0, 0x0000)), 3),
        3 | 1 => return entry(line, Right, Erase),
        _ => return entry(line, Left, Erase),
    };
    if place == 0 { tidying } else { step_before(next, place - 1) }
}

/// The deciding store and the two marks after it, where a page was live.
fn mark_after(live: Side, place: u32) -> Entry {
    let by_side = |left, right| if live == Left { left } else { right };
    match place {
        0 => entry(by_side(1, 8), live.other(), Program(0, 0xFF00)),
        1 => entry(by_side(5, 9), live, Program(2, 0xFF00)),
        _ => entry(by_side(6, 10), live.other(), Program(0, 0x0000)),
    }
}

/// The same at line 0.
fn first_mark(place: u32) -> Entry {
    match place {
        0 => entry(0, Left, Program(0, 0x0000)),
        1 => entry(1, Right, Program(2, 0xFF00)),
        _ => entry(2, Right, Program(0, 0x0000)),
    }
}

fn entry_at(walk: &Walk) -> Entry {
    if walk.kind == FORMAT {
        return clearing(walk.line, walk.place);
    }
    let before = steps_before(walk.line, taken_as_erased(walk));
    if walk.place < before {
        return match walk.line {
            0 => clearing(0, walk.place),
            line => step_before(line, walk.place),
        };
    }
    let place = walk.place - before;
    let live = live_of(walk.line);
    if place < cells_of(walk.page) {
        return match live {
            None => entry(0, Left, Cell(2 * place)),
            Some(Left) => entry(1, Right, Cell(2 * place)),
            Some(Right) => entry(8, Left, Cell(2 * place)),
        };
    }
    let place = place - cells_of(walk.page);
    match live {
        None => first_mark(place),
        Some(side) => mark_after(side, place),
    }
}

/// A cell of the new image: that of the data, else that of the live image, else FFFF.
fn new_cell(walk: &Walk, left: &[u8], right: &[u8], data: &[u8], at: u32) -> u16 {
    let offset = walk.offset - MANAGEMENT;
    if at >= offset && at - offset < walk.length {
        return cell_at(data, (at - offset) as usize);
    }
    let image = MANAGEMENT as usize;
    match live_of(walk.line) {
        None => 0xFFFF,
        Some(Left) => cell_at(&left[image..], at as usize),
        Some(Right) => cell_at(&right[image..], at as usize),
    }
}

// ---- beginning and stepping

fn begin(kind: u32, left: &[u8], right: &[u8], offset: u32, length: usize) -> Result<Walk, u32> {
    let (p, q) = (left.len(), right.len());
    let number = match kind {
        SAVE => request_number(p, q, offset, length),
        _ => pages_number(p, q),
    };
    if number != 0 {
        return Err(number);
    }
    let line = line_of(left, right);
    let erased = erased_counts(kind, line)
        && match live_of(line) {
            Some(Left) => is_erased(right),
            Some(Right) => is_erased(left),
            None => is_erased(left) && is_erased(right),
        };
    let (offset, length) = if kind == SAVE { (offset, length as u32) } else { (MANAGEMENT, 0) };
    Ok(Walk { kind, line, erased, page: p as u32, offset, length, place: 0 })
}

fn numbers_hold(walk: &Walk, p: usize, q: usize, length: usize) -> bool {
    if request_number(p, q, walk.offset, walk.length as usize) != 0 {
        return false;
    }
    if p != walk.page as usize || length != walk.length as usize || !in_table(walk.line) {
        return false;
    }
    match walk.kind {
        SAVE => true,
        FORMAT => walk.offset == MANAGEMENT && walk.length == 0,
        _ => false,
    }
}

fn make(entry: Entry, walk: &Walk, left: &mut [u8], right: &mut [u8], data: &[u8]) -> bool {
    let value = match entry.what {
        Cell(at) => new_cell(walk, left, right, data, at),
        _ => 0,
    };
    let page = match entry.side {
        Left => left,
        Right => right,
    };
    match entry.what {
        Erase => {
            erase(page);
            true
        }
        Cell(at) => program(&mut page[MANAGEMENT as usize..], at as usize, value),
        Program(at, mark) => program(page, at as usize, mark),
    }
}

fn step(walk: &mut Walk, left: &mut [u8], right: &mut [u8], data: &[u8]) -> u32 {
    if !numbers_hold(walk, left.len(), right.len(), data.len()) {
        return UNFIT;
    }
    let total = total_of(walk);
    if walk.place > total {
        return UNFIT;
    }
    if walk.place == total {
        return ENDED;
    }
    let entry = entry_at(walk);
    if line_of(left, right) != entry.line {
        return UNFIT;
    }
    if !make(entry, walk, left, right, data) {
        return UNFIT;
    }
    walk.place += 1;
    MADE
}

// ---- what the benchmark calls

/// The bytes that a caller of the boundary lends.
///
/// # Safety
/// The pointer points to that many bytes, which nothing writes meanwhile.
unsafe fn lent<'a>(bytes: *const u8, length: usize) -> &'a [u8] {
    unsafe { std::slice::from_raw_parts(bytes, length) }
}

/// The same, to be written.
///
/// # Safety
/// The pointer points to that many bytes, which nothing else reads or writes meanwhile.
unsafe fn lent_mut<'a>(bytes: *mut u8, length: usize) -> &'a mut [u8] {
    unsafe { std::slice::from_raw_parts_mut(bytes, length) }
}

pub unsafe extern "C" fn rust_erased(page: *const u8, p: usize) -> bool {
    is_erased(unsafe { lent(page, p) })
}

// The erased test eight bytes at a time, in three ways, of which the quickest depends on the page.

fn eight(bytes: &[u8]) -> u64 {
    u64::from_le_bytes(bytes.try_into().unwrap())
}

/// All eights of a slice joined by AND.
fn joined(bytes: &[u8]) -> u64 {
    bytes.chunks_exact(8).fold(u64::MAX, |all, next| all & eight(next))
}

fn is_erased_by_eights(page: &[u8]) -> bool {
    let mut eights = page.chunks_exact(8);
    eights.all(|next| eight(next) == u64::MAX) && is_erased(eights.remainder())
}

/// With a way out after each eight.
pub unsafe extern "C" fn rust_erased_eights(page: *const u8, p: usize) -> bool {
    is_erased_by_eights(unsafe { lent(page, p) })
}

/// With no way out.
pub unsafe extern "C" fn rust_erased_joined(page: *const u8, p: usize) -> bool {
    let page = unsafe { lent(page, p) };
    joined(page) == u64::MAX && is_erased(page.chunks_exact(8).remainder())
}

/// With a way out after each 16 of them.
pub unsafe extern "C" fn rust_erased_blocks(page: *const u8, p: usize) -> bool {
    let mut blocks = unsafe { lent(page, p) }.chunks_exact(128);
    blocks.all(|block| joined(block) == u64::MAX) && is_erased_by_eights(blocks.remainder())
}

pub unsafe extern "C" fn rust_part(
    left: *const u8, p: usize, right: *const u8, q: usize, offset: u32, length: u32,
) -> Part {
    let (left, right) = unsafe { (lent(left, p), lent(right, q)) };
    match read(left, right, offset, length as usize) {
        Err(_) => Part::default(),
        Ok(part) => Part { length: part.len(), first: part.first().copied().unwrap_or(0) },
    }
}

pub unsafe extern "C" fn rust_copy(
    left: *const u8, p: usize, right: *const u8, q: usize, offset: u32, out: *mut u8, length: usize,
) -> u32 {
    let (left, right, out) = unsafe { (lent(left, p), lent(right, q), lent_mut(out, length)) };
    match read(left, right, offset, length) {
        Ok(part) => {
            out.copy_from_slice(part);
            0
        }
        Err(5) => {
            out.fill(0xFF);
            5
        }
        Err(number) => number,
    }
}

pub unsafe extern "C" fn rust_begin(
    left: *const u8, p: usize, right: *const u8, q: usize, offset: u32, _data: *const u8,
    length: usize,
) -> Start {
    match begin(SAVE, unsafe { lent(left, p) }, unsafe { lent(right, q) }, offset, length) {
        Err(number) => Start { number: number as u8, ..Start::default() },
        Ok(walk) => Start { number: 0, line: walk.line as u8, erased: walk.erased },
    }
}

pub unsafe extern "C" fn rust_step(
    line: u32, erased: bool, page: u32, offset: u32, kept: u32, place: *mut u32,
    left: *mut u8, p: usize, right: *mut u8, q: usize, data: *const u8, length: usize,
) -> u32 {
    let (left, right, data) = unsafe { (lent_mut(left, p), lent_mut(right, q), lent(data, length)) };
    let place = unsafe { &mut *place };
    let mut walk = Walk { kind: SAVE, line, erased, page, offset, length: kept, place: *place };
    let answer = step(&mut walk, left, right, data);
    *place = walk.place;
    answer
}

fn walk_on(
    begun: Result<Walk, u32>, left: &mut [u8], right: &mut [u8], data: &[u8],
) -> Whole {
    let mut walk = match begun {
        Err(number) => return Whole { number, steps: 0 },
        Ok(walk) => walk,
    };
    loop {
        match step(&mut walk, left, right, data) {
            MADE => {}
            ENDED => return Whole { number: 0, steps: walk.place },
            number => return Whole { number, steps: walk.place },
        }
    }
}

pub unsafe extern "C" fn rust_save(
    left: *mut u8, p: usize, right: *mut u8, q: usize, offset: u32, data: *const u8, length: usize,
) -> Whole {
    let (left, right, data) = unsafe { (lent_mut(left, p), lent_mut(right, q), lent(data, length)) };
    walk_on(begin(SAVE, left, right, offset, data.len()), left, right, data)
}

pub unsafe extern "C" fn rust_format(left: *mut u8, p: usize, right: *mut u8, q: usize) -> Whole {
    let (left, right) = unsafe { (lent_mut(left, p), lent_mut(right, q)) };
    walk_on(begin(FORMAT, left, right, 0, 0), left, right, &[])
}
