//! The rows of the table: what is measured, on which pages, and its bar.

use crate::calls::Library;
use crate::plain::{ENDED, MADE};
use std::hint::black_box;
use std::ops::{Deref, DerefMut};
use std::time::Instant;

/// How long a run lasts at least: enough that reading the clock doesn't count.
pub const NANOSECONDS_A_RUN: u128 = 30_000;

/// The settings of the drive: what the whole save saves.
const DATA: [u8; 42] = [0x5A; 42];
const OFFSET: u32 = 6;

pub const ERASED: u32 = 0xFFFFFFFF;
pub const ACTIVE: u32 = 0xFFFF0000;
pub const DEAD: u32 = 0xFF000000;

#[derive(Clone, Copy)]
enum Job {
    Part,
    Copy(usize),
    Begin,
    Step,
    Save,
    Format,
    PageCopy,
    PageSet,
    BothSet,
}

pub struct Row {
    pub what: String,
    pub p: usize,
    pub bar: Option<f64>,
    /// Whether only the machine's own functions are measured, in plain Rust's column.
    pub alone: bool,
    job: Job,
    pages: Pages,
}

/// The pages that a row begins with: both words, and the byte of RIGHT that isn't FF, if any.
#[derive(Clone, Copy)]
struct Pages {
    left: u32,
    right: u32,
    used: Option<usize>,
}

fn pages(left: u32, right: u32) -> Pages {
    Pages { left, right, used: None }
}

/// A page of this length with this word, all else erased.
pub fn page(p: usize, word: u32) -> Vec<u8> {
    let mut bytes = vec![0xFF; p];
    bytes[..4].copy_from_slice(&word.to_le_bytes());
    bytes
}

pub fn rows(lengths: &[usize]) -> Vec<Row> {
    lengths.iter().flat_map(|&p| rows_at(p)).collect()
}

fn rows_at(p: usize) -> Vec<Row> {
    let line_3 = pages(ACTIVE, DEAD);
    let line_7 = pages(DEAD, ACTIVE);
    let line_1 = pages(ACTIVE, ERASED);
    let used = |pages, at| Pages { used: Some(at), ..pages };
    let row = |what: &str, job, pages, bar| Row {
        what: what.into(),
        p,
        bar,
        alone: matches!(job, Job::PageCopy | Job::PageSet | Job::BothSet),
        job,
        pages,
    };
    vec![
        row("read a part of 42 bytes", Job::Part, line_3, Some(1.0)),
        row("read a copy of 42 bytes", Job::Copy(42), line_3, Some(1.2)),
        row("read a copy of the image", Job::Copy(p - 4), line_3, Some(1.2)),
        row("begin at line 0, both erased", Job::Begin, pages(ERASED, ERASED), None),
        row("begin at line 0, not erased", Job::Begin, pages(ACTIVE, ACTIVE), None),
        row("begin at line 1, RIGHT erased", Job::Begin, line_1, None),
        row("begin at line 1, RIGHT used from byte 4", Job::Begin, used(line_1, 4), Some(1.0)),
        row("begin at line 1, RIGHT used in its last byte", Job::Begin, used(line_1, p - 1), None),
        row("begin at line 3", Job::Begin, line_3, Some(1.0)),
        row("begin at line 7", Job::Begin, line_7, Some(1.0)),
        row("one step (mean of a save's)", Job::Step, line_3, None),
        row("a whole save of 42 bytes, lines 3 and 7", Job::Save, line_3, Some(0.5)),
        row("a whole format, line 3", Job::Format, line_3, Some(0.5)),
        row("a whole format, line 0", Job::Format, pages(ACTIVE, ACTIVE), Some(0.5)),
        row("memcpy of a page", Job::PageCopy, line_3, None),
        row("memset of a page", Job::PageSet, line_3, None),
        row("memset of both pages, as a format has to", Job::BothSet, line_3, None),
    ]
}

/// Bytes that begin at a given place of a memory page: the same for all three, so that none meets
/// cache lines otherwise than the others.
pub struct Placed {
    bytes: Vec<u8>,
    start: usize,
}

const MEMORY_PAGE: usize = 4096;

impl Placed {
    pub fn new(content: &[u8], place: usize) -> Placed {
        let mut bytes = vec![0; content.len() + 2 * MEMORY_PAGE];
        let start = MEMORY_PAGE - bytes.as_ptr() as usize % MEMORY_PAGE + place;
        bytes[start..start + content.len()].copy_from_slice(content);
        bytes.truncate(start + content.len());
        Placed { bytes, start }
    }
}

impl Deref for Placed {
    type Target = [u8];
    fn deref(&self) -> &[u8] {
        &self.bytes[self.start..]
    }
}

impl DerefMut for Placed {
    fn deref_mut(&mut self) -> &mut [u8] {
        &mut self.bytes[self.start..]
    }
}

/// A row measured for one library, on pages of its own.
pub struct Timed {
    library: Library,
    job: Job,
    words: [u32; 2],
    left: Placed,
    right: Placed,
    out: Placed,
    calls: usize,
}

impl Timed {
    /// Makes the pages and finds how many calls a run takes; that warms everything too.
    pub fn new(row: &Row, library: Library) -> Timed {
        let mut right = page(row.p, row.pages.right);
        if let Some(at) = row.pages.used {
            right[at] = 0;
        }
        let mut timed = Timed {
            library,
            job: row.job,
            words: [row.pages.left, row.pages.right],
            left: Placed::new(&page(row.p, row.pages.left), 0),
            right: Placed::new(&right, 512),
            out: Placed::new(&vec![0; row.p], 1024),
            calls: 1,
        };
        while timed.run().1 < NANOSECONDS_A_RUN {
            timed.calls *= 2;
        }
        timed
    }

    /// The time of a call, or of a step, in one run.
    pub fn nanoseconds(&mut self) -> f64 {
        let (units, time) = self.run();
        time as f64 / units as f64
    }

    /// Makes the calls of a run; gives how many units of work they were, and how long they took.
    fn run(&mut self) -> (usize, u128) {
        let clock = Instant::now();
        let units = self.make_calls();
        (units, clock.elapsed().as_nanos())
    }

    fn make_calls(&mut self) -> usize {
        let calls = self.calls;
        match self.job {
            Job::Part => self.repeat(|t| t.library.part(&t.left, &t.right, OFFSET, 42)),
            Job::Copy(n) => self.repeat(|t| t.library.copy(&t.left, &t.right, 4, &mut t.out[..n])),
            Job::Begin => self.repeat(|t| t.library.begin(&t.left, &t.right, OFFSET, &DATA)),
            Job::Save => {
                self.repeat(|t| t.library.save(&mut t.left, &mut t.right, OFFSET, &DATA))
            }
            Job::Format => self.repeat(Timed::format),
            Job::Step => return (0..calls).map(|_| self.walk()).sum(),
            Job::PageCopy => self.repeat(|t| t.out.copy_from_slice(&t.left)),
            Job::PageSet => self.repeat(|t| t.out.fill(0xFF)),
            Job::BothSet => self.repeat(|t| {
                t.left.fill(0xFF);
                t.right.fill(0xFF);
            }),
        }
        calls
    }

    /// Makes a call as often as a run asks. An answer is shown to the compiler where it lies and is
    /// not copied.
    fn repeat<T>(&mut self, call: impl Fn(&mut Timed) -> T) {
        for _ in 0..self.calls {
            let answer = call(black_box(self));
            black_box(&answer);
        }
    }

    /// A format, of pages whose words are put back first: the stores cost the same for all three.
    fn format(&mut self) -> u32 {
        self.left[..4].copy_from_slice(&self.words[0].to_le_bytes());
        self.right[..4].copy_from_slice(&self.words[1].to_le_bytes());
        self.library.format(&mut self.left, &mut self.right).steps
    }

    /// A whole save, stepped from here; gives its steps.
    fn walk(&mut self) -> usize {
        let mut walk = self.library.walk_of(&self.left, &self.right, OFFSET, &DATA);
        loop {
            match self.library.step(&mut walk, &mut self.left, &mut self.right, &DATA) {
                MADE => {}
                ENDED => return walk.place as usize,
                number => panic!("{}: a step is answered {number}", self.library.name),
            }
        }
    }
}
