//! The three versions held to the same answers and the same page bytes, before anything is measured.

use crate::calls::Library;
use crate::plain::{MADE, Whole};
use crate::rows::page;

const WORDS: [u32; 7] =
    [0xFFFFFFFF, 0xFFFFFF00, 0xFFFF0000, 0xFF000000, 0xFF00FFFF, 0x00000000, 0xFFFF00FF];
const LENGTHS: [usize; 8] = [6, 7, 8, 10, 64, 512, 4096, 4098];
const REQUESTS: [(u32, usize); 10] =
    [(4, 0), (4, 2), (6, 2), (4, 4), (5, 2), (3, 2), (2, 2), (8, 0), (6, 42), (0xFFFFFFFE, 2)];

struct Count(usize);

impl Count {
    /// Counts three answers, or says where they differ.
    fn same<T: PartialEq + std::fmt::Debug>(
        &mut self, answers: [T; 3], what: &str, case: &str,
    ) -> Result<(), String> {
        self.0 += 1;
        if answers[0] == answers[1] && answers[0] == answers[2] {
            return Ok(());
        }
        Err(format!("{what}, {case}: {:.300}", format!("{answers:?}")))
    }
}

/// Compares the three over pairs of words, lengths and requests; gives the number of comparisons.
pub fn compare(libraries: &[Library; 3]) -> Result<usize, String> {
    let mut count = Count(0);
    for p in LENGTHS {
        for left in WORDS {
            for right in WORDS {
                for used in [None, Some(p - 1)] {
                    let mut pages = [page(p, left), page(p, right)];
                    if let Some(at) = used {
                        pages[1][at] = 0x7F;
                    }
                    compare_pages(libraries, &pages, &mut count)?;
                }
            }
        }
    }
    Ok(count.0)
}

fn compare_pages(
    libraries: &[Library; 3], [left, right]: &[Vec<u8>; 2], count: &mut Count,
) -> Result<(), String> {
    let case = format!("P {}, words {:02X?} {:02X?}", left.len(), &left[..4], &right[..4]);
    count.same(libraries.map(|l| l.erased(right)), "erased", &case)?;
    let longer = vec![0xFF; right.len() + 2];
    count.same(libraries.map(|l| l.begin(left, &longer, 4, &[])), "other length", &case)?;
    let formatted = |l: Library| walked(left, right, |left, right| l.format(left, right));
    count.same(libraries.map(formatted), "format", &case)?;
    for (offset, length) in REQUESTS {
        let case = format!("{case}, offset {offset}, length {length}");
        let data: Vec<u8> = (0..length).map(|i| i as u8).collect();
        let n = length as u32;
        count.same(libraries.map(|l| l.part(left, right, offset, n)), "part", &case)?;
        count.same(libraries.map(|l| copied(l, left, right, offset, length)), "copy", &case)?;
        count.same(libraries.map(|l| l.begin(left, right, offset, &data)), "begin", &case)?;
        let saved =
            |l: Library| walked(left, right, |left, right| l.save(left, right, offset, &data));
        count.same(libraries.map(saved), "save", &case)?;
        count.same(libraries.map(|l| stepped(l, left, right, offset, &data)), "steps", &case)?;
    }
    Ok(())
}

fn copied(l: Library, left: &[u8], right: &[u8], offset: u32, length: usize) -> (u32, Vec<u8>) {
    let mut out = vec![0xA5; length];
    (l.copy(left, right, offset, &mut out), out)
}

/// The answer of a whole walk by one call, and both pages after it.
fn walked(
    left: &[u8], right: &[u8], walk: impl Fn(&mut [u8], &mut [u8]) -> Whole,
) -> (Whole, Vec<u8>, Vec<u8>) {
    let (mut left, mut right) = (left.to_vec(), right.to_vec());
    (walk(&mut left, &mut right), left, right)
}

/// A walk stepped one by one: the last answer, the steps made, and both pages after it. One step is
/// tried with data of another length, one with the walk at a place that it can't have, and one on
/// pages of another length.
fn stepped(
    l: Library, left: &[u8], right: &[u8], offset: u32, data: &[u8],
) -> (u32, u32, [u32; 4], Vec<u8>, Vec<u8>) {
    let (mut left, mut right) = (left.to_vec(), right.to_vec());
    let mut walk = l.walk_of(&left, &right, offset, data);
    let mut beyond = walk;
    beyond.place = 5000;
    let mut strange = walk;
    strange.start.line = 4;
    let tried = [
        l.step(&mut walk, &mut left, &mut right, &[1, 2, 3]),
        l.step(&mut beyond, &mut left, &mut right, data),
        l.step(&mut strange, &mut left, &mut right, data),
        l.step(&mut walk, &mut left[..2], &mut right, data),
    ];
    let mut answer = l.step(&mut walk, &mut left, &mut right, data);
    while answer == MADE {
        answer = l.step(&mut walk, &mut left, &mut right, data);
    }
    (answer, walk.place, tried, left, right)
}
