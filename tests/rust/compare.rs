//! The call of the library under test, and the comparison of all that it gives and leaves with what
//! the model wants.

use crate::buffers::{Buffer, Edge, Huge, EDGES};
use crate::model::{word, Pages, Rules};
use crate::script::{self, hex, Wanted};
use crate::stop::{self, Told};

/// `struct fretgalaxy_report` of include/fretgalaxy.h.
#[repr(C)]
struct Report {
    status: u32,
    place: usize,
}

extern "C" {
    fn fretgalaxy_replay(
        left: *mut u8,
        left_length: usize,
        right: *mut u8,
        right_length: usize,
        script: *const u8,
        script_length: usize,
        out: *mut u8,
        out_length: usize,
    ) -> Report;
}

/// What has been compared so far.
#[derive(Clone, Copy, Default)]
pub struct Counts {
    pub replays: u64,
    pub calls: u64,
    pub answers: u64,
    pub bytes: u64,
    pub comparisons: u64,
}

impl Counts {
    pub fn add(&mut self, other: &Counts) {
        self.replays += other.replays;
        self.calls += other.calls;
        self.answers += other.answers;
        self.bytes += other.bytes;
        self.comparisons += other.comparisons;
    }
}

/// The first difference found: the case's name, and all that is needed to see it again.
pub struct Difference {
    pub case: String,
    pub text: String,
}

pub type Outcome<T = ()> = Result<T, Difference>;

/// How a case is named; asked only if it differs.
pub type Name<'a> = &'a dyn Fn() -> String;

/// A replay: pages, script and the length of the output.
pub struct Case<'a> {
    pub name: Name<'a>,
    pub pages: &'a Pages,
    pub script: &'a [u8],
    pub out: usize,
}

impl Told for Case<'_> {
    /// The case by its name and its material.
    fn words(&self) -> String {
        format!("{}; {}", (self.name)(), self.material())
    }
}

impl Case<'_> {
    fn material(&self) -> String {
        format!(
            "pages {}, {}; output of {} bytes; script: {}",
            page_words("LEFT", &self.pages.left),
            page_words("RIGHT", &self.pages.right),
            self.out,
            script::words(self.script)
        )
    }
}

/// The buffers to lend, the rules of the model to compare with, and the counts.
pub struct Checker {
    pub rules: Rules,
    pub counts: Counts,
    left: Buffer,
    right: Buffer,
    script: Buffer,
    out: Buffer,
    /// What the output holds before a replay; inverted for the second edge, so that a byte that is
    /// written differs from what it was at one of them.
    filler: [Vec<u8>; 2],
    /// How many replays were made in turn, each at one edge; None if each is made at both.
    turn: Option<usize>,
}

impl Checker {
    pub fn new(rules: Rules) -> Checker {
        let filler: Vec<u8> =
            (0..crate::buffers::CAPACITY).map(|place| (place * 89 + 23) as u8).collect();
        let inverted = filler.iter().map(|byte| !byte).collect();
        Checker {
            rules,
            counts: Counts::default(),
            left: Buffer::writable(),
            right: Buffer::writable(),
            script: Buffer::read_only(),
            out: Buffer::writable(),
            filler: [filler, inverted],
            turn: None,
        }
    }

    /// From now on a case is replayed at one edge only, and the next one at the other; or at both
    /// again. In turn is meant for pages of 4,096 bytes, which touch both unmapped pages anyway.
    pub fn in_turn(&mut self, in_turn: bool) {
        self.turn = in_turn.then_some(0);
    }

    /// Replays a script with an output that is longer than the room by `slack`, compares all with
    /// the model and hands back the pages after it.
    pub fn replay(
        &mut self,
        name: Name,
        pages: &Pages,
        script: &[u8],
        slack: usize,
    ) -> Outcome<Pages> {
        let out = script::room(script) as usize + slack;
        self.replay_in(&Case { name, pages, script, out })
    }

    /// Replays a case and compares all with the model.
    pub fn replay_in(&mut self, case: &Case) -> Outcome<Pages> {
        let wanted = script::want(self.rules, case.pages, case.script, case.out as u64);
        let wanted = wanted.map_err(|text| {
            self.difference(case, format!("the model's own board and book differ: {text}"))
        })?;
        self.compare(case, &wanted)?;
        Ok(wanted.pages)
    }

    /// Replays a case at both edges, or at the next in turn, and compares all with what is wanted.
    pub fn compare(&mut self, case: &Case, wanted: &Wanted) -> Outcome {
        let edges = match &mut self.turn {
            None => 0..2,
            Some(turn) => {
                *turn += 1;
                *turn % 2..*turn % 2 + 1
            }
        };
        for index in edges {
            let edge = EDGES[index];
            let report = self.call(case, edge, index);
            self.count(case, wanted);
            if let Some(text) = self.differs(case, wanted, &report, index) {
                return Err(self.difference(case, format!("{text} (unmapped page {edge:?})")));
            }
        }
        Ok(())
    }

    fn call(&mut self, case: &Case, edge: Edge, filler: usize) -> Report {
        self.left.lay(&case.pages.left, edge);
        self.right.lay(&case.pages.right, edge);
        self.script.lay(case.script, edge);
        self.out.lay(&self.filler[filler][..case.out], edge);
        let (left, right) = (self.left.lend(), self.right.lend());
        let (script, out) = (self.script.lend(), self.out.lend());
        // SAFETY: four buffers of their own, each valid for its length; the script is only read.
        stop::during(case, || unsafe {
            fretgalaxy_replay(left.0, left.1, right.0, right.1, script.0, script.1, out.0, out.1)
        })
    }

    fn count(&mut self, case: &Case, wanted: &Wanted) {
        let lengths = case.pages.left.len() + case.pages.right.len();
        self.counts.replays += 1;
        if wanted.status == script::REPLAYED {
            self.counts.calls += script::calls(case.script);
        }
        self.counts.answers += wanted.answers.len() as u64;
        self.counts.bytes += (lengths + case.script.len() + case.out) as u64;
        self.counts.comparisons += 6;
    }

    /// The six comparisons of a replay; the first that fails is told.
    fn differs(&self, case: &Case, wanted: &Wanted, got: &Report, filler: usize) -> Option<String> {
        if (got.status, got.place) != (wanted.status, wanted.place) {
            return Some(format!(
                "status {} place {}, wanted status {} place {}{}",
                got.status,
                got.place,
                wanted.status,
                wanted.place,
                self.answers(case, wanted)
            ));
        }
        let (answers, rest) = self.out.bytes().split_at(wanted.answers.len());
        if let Some(place) = unequal(answers, &wanted.answers) {
            let call = script::call_of(self.rules, case.pages, case.script, place);
            return Some(format!("{call}: answers' {}", told(answers, &wanted.answers, place)));
        }
        let kept = &self.filler[filler][answers.len()..case.out];
        unequal(rest, kept)
            .map(|place| format!("output behind the answers: {}", told(rest, kept, place)))
            .or_else(|| page_differs("LEFT", self.left.bytes(), &wanted.pages.left))
            .or_else(|| page_differs("RIGHT", self.right.bytes(), &wanted.pages.right))
            .or_else(|| page_differs("script", self.script.bytes(), case.script))
    }

    /// Where a replay took another number of bytes than wanted: its answers, if they can be shown.
    fn answers(&self, case: &Case, wanted: &Wanted) -> String {
        let got = self.out.bytes();
        match unequal(&got[..wanted.answers.len().min(got.len())], &wanted.answers) {
            None => String::new(),
            Some(place) => {
                let call = script::call_of(self.rules, case.pages, case.script, place);
                format!("; {call}: answers' {}", told(got, &wanted.answers, place))
            }
        }
    }

    fn difference(&self, case: &Case, text: String) -> Difference {
        Difference { case: (case.name)(), text: format!("{text}; {}", case.material()) }
    }
}

/// The first place at which the bytes differ, or the shorter length.
fn unequal(got: &[u8], wanted: &[u8]) -> Option<usize> {
    if got == wanted {
        return None;
    }
    let place = got.iter().zip(wanted).position(|(a, b)| a != b);
    Some(place.unwrap_or(got.len().min(wanted.len())))
}

/// The bytes from this place on, of both.
fn told(got: &[u8], wanted: &[u8], place: usize) -> String {
    let some = |bytes: &[u8]| hex(&bytes[place.min(bytes.len())..bytes.len().min(place + 8)]);
    format!("byte {place}: got {}, wanted {}", some(got), some(wanted))
}

fn page_differs(what: &str, got: &[u8], wanted: &[u8]) -> Option<String> {
    unequal(got, wanted).map(|place| format!("{what} {}", told(got, wanted, place)))
}

fn page_words(what: &str, page: &[u8]) -> String {
    let name = if page.len() < 4 { String::new() } else { format!(" {:08X}", word(page)) };
    format!("{what}{name} P {}: {}", page.len(), hex(page))
}

/// A replay with lengths that may be beyond 32 bits. Hands back status and place.
pub fn replay_huge(
    left: &mut Huge,
    right: &mut Huge,
    script: &mut Huge,
    out: &mut Huge,
) -> (u32, usize) {
    let (left, right) = (left.lend(), right.lend());
    let (script, out) = (script.lend(), out.lend());
    // SAFETY: four mappings of their own, each valid for its length.
    let report = unsafe {
        fretgalaxy_replay(left.0, left.1, right.0, right.1, script.0, script.1, out.0, out.1)
    };
    (report.status, report.place)
}
