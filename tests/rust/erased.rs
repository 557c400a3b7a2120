//! The erased test by itself: every length through two blocks and those next to 4,096, every alignment,
//! and each single byte not FF in turn, close to unmapped pages on either side.

use crate::buffers::{Edge, Window, EDGES};
use crate::stop::{self, Told};

extern "C" {
    /// The erased test as crates/bench_reads exports it.
    fn bench_erased(page: *const u8, length: usize) -> bool;
}

/// What a byte that isn't FF holds: all bits but one set, the lowest or the highest, or none.
const USED: [u8; 3] = [0xFE, 0x7F, 0x00];
/// What lies around the bytes that are lent: used, or erased too.
const AROUND: [u8; 2] = [0x00, 0xFF];
/// How many bytes the library looks at before it can stop.
const BLOCK: usize = 64;
/// Two blocks, an eight and a rest.
const SHORT: usize = 2 * BLOCK + 16;

/// A page to ask about: its length, where it lies, and the byte that isn't FF.
#[derive(Clone, Copy)]
struct Page {
    length: usize,
    edge: Edge,
    gap: usize,
    around: u8,
    used: Option<(usize, u8)>,
}

impl Told for Page {
    fn words(&self) -> String {
        let used = match self.used {
            Some((at, byte)) => format!("byte {at} is {byte:02X}, the others FF"),
            None => "all FF".to_string(),
        };
        let place = match self.edge {
            Edge::Behind => "before",
            Edge::Before => "behind",
        };
        format!(
            "erased test: length {}, {} bytes {place} an unmapped page, {:02X} around it: {used}",
            self.length, self.gap, self.around
        )
    }
}

/// A test to ask: the library's, or a wrong one.
type Test<'a> = &'a dyn Fn(&Page, &Window) -> bool;

/// Asks about every page of these lengths; gives how many there were, or the first with a wrong answer.
fn ask(
    window: &mut Window,
    lengths: impl Iterator<Item = usize>,
    test: Test,
) -> Result<u64, String> {
    let mut asked = 0;
    let mut expect = |page: &Page, window: &Window| {
        asked += 1;
        if test(page, window) == page.used.is_none() { Ok(()) } else { Err(page.words()) }
    };
    for length in lengths {
        for edge in EDGES {
            // From the unmapped page before it, or up to the one behind it: either way every alignment.
            for gap in 0..8 {
                for around in AROUND {
                    let page = Page { length, edge, gap, around, used: None };
                    window.lay(length, edge, gap, around);
                    expect(&page, window)?;
                    for at in 0..length {
                        for byte in USED {
                            window.set(at, byte);
                            expect(&Page { used: Some((at, byte)), ..page }, window)?;
                        }
                        window.set(at, 0xFF);
                    }
                }
            }
        }
    }
    Ok(asked)
}

/// Faults of a test that goes by blocks, eights and a rest.
#[derive(Clone, Copy, Debug, PartialEq, Eq)]
enum Fault {
    RestLeftOut,
    RestBegunOneLate,
    RestOf254,
    LastEightLeftOut,
    SevenOfEight,
    JoinedByOr,
    WayOutAnswersYes,
    OneByteTooMany,
}

/// Every fault, and what is wrong.
const FAULTS: [(Fault, &str); 8] = [
    (Fault::RestLeftOut, "the rest is left out"),
    (Fault::RestBegunOneLate, "the rest is begun one late"),
    (Fault::RestOf254, "the rest is compared with 254"),
    (Fault::LastEightLeftOut, "the last eight of a block is left out"),
    (Fault::SevenOfEight, "seven bytes of every eight are looked at"),
    (Fault::JoinedByOr, "the eights of a block are joined by OR"),
    (Fault::WayOutAnswersYes, "the way out between blocks answers yes"),
    (Fault::OneByteTooMany, "the byte behind the page is looked at too"),
];

/// A test with a fault, or with none. `after` is the byte behind the page, where one is mapped.
fn planted(page: &[u8], after: Option<u8>, fault: Option<Fault>) -> bool {
    let has = |wanted| fault == Some(wanted);
    let eight = |at: usize| {
        let bytes = if has(Fault::SevenOfEight) { 7 } else { 8 };
        page[at..at + bytes].iter().all(|byte| *byte == 0xFF)
    };
    let mut at = 0;
    while BLOCK <= page.len() - at {
        let looked_at = if has(Fault::LastEightLeftOut) { BLOCK - 8 } else { BLOCK };
        let mut eights = (at..at + looked_at).step_by(8).map(eight);
        let passes =
            if has(Fault::JoinedByOr) { eights.any(|set| set) } else { eights.all(|set| set) };
        if !passes {
            return has(Fault::WayOutAnswersYes);
        }
        at += BLOCK;
    }
    while 8 <= page.len() - at {
        if !eight(at) {
            return false;
        }
        at += 8;
    }
    match fault {
        Some(Fault::RestLeftOut) => at = page.len(),
        Some(Fault::RestBegunOneLate) => at = page.len().min(at + 1),
        _ => {}
    }
    let wanted = if has(Fault::RestOf254) { 0xFE } else { 0xFF };
    let behind = after.filter(|_| has(Fault::OneByteTooMany));
    page[at..].iter().chain(&behind).all(|byte| *byte == wanted)
}

/// The whole of it: the library's test, then the planted ones; hands back how many answers of the
/// library were compared.
pub fn run() -> Result<u64, String> {
    let mut window = Window::new();
    let asked = ask(&mut window, (0..=SHORT).chain(4088..=4096), &|page, window| {
        let (start, length) = window.lend();
        // SAFETY: the window is mapped for reading for this length.
        stop::during(page, || unsafe { bench_erased(start, length) })
    })?;
    println!(
        "erased test: {asked} pages of 0 to {SHORT} and 4,088 to 4,096 bytes, every alignment, each \
         byte in turn FE, 7F and 00"
    );
    let mut find = |fault| {
        ask(&mut window, 0..=SHORT, &|_, window| planted(window.bytes(), window.after(), fault))
    };
    find(None).map_err(|found| format!("with no fault planted: {found}"))?;
    for (fault, text) in FAULTS {
        match find(Some(fault)) {
            Ok(_) => return Err(format!("the planted fault {fault:?} of an erased test is not found")),
            Err(found) => println!("planted in an erased test: {text}; found by: {found}"),
        }
    }
    Ok(asked)
}
