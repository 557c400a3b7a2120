//! Random sequences of calls from a seed: pages of telling words, scripts of all kinds of call, and
//! chains of scripts of which each begins with the pages that the one before it left.

use crate::cases::Job;
use crate::compare::{Case, Checker, Outcome};
use crate::model::{Pages, TABLE};
use crate::script::{self, Call};

/// The run is cut into this many jobs, whatever the number of threads, so that a seed and a number
/// of calls give the same sequences again.
const JOBS: u64 = 64;

/// SplitMix64.
struct Random(u64);

impl Random {
    fn next(&mut self) -> u64 {
        self.0 = self.0.wrapping_add(0x9E37_79B9_7F4A_7C15);
        let mut x = self.0;
        x = (x ^ (x >> 30)).wrapping_mul(0xBF58_476D_1CE4_E5B9);
        x = (x ^ (x >> 27)).wrapping_mul(0x94D0_49BB_1331_11EB);
        x ^ (x >> 31)
    }

    /// A number below this one, which isn't 0.
    fn below(&mut self, limit: usize) -> usize {
        (self.next() % limit as u64) as usize
    }

    /// True so many times in a hundred.
    fn chance(&mut self, percent: usize) -> bool {
        self.below(100) < percent
    }

    fn one_of<T: Copy>(&mut self, values: &[T]) -> T {
        values[self.below(values.len())]
    }

    fn bytes(&mut self, length: usize) -> Vec<u8> {
        let mut bytes = vec![0; length];
        for chunk in bytes.chunks_mut(8) {
            let number = self.next().to_le_bytes();
            chunk.copy_from_slice(&number[..chunk.len()]);
        }
        bytes
    }
}

/// Jobs that make at least this many calls together.
pub fn jobs(seed: u64, calls: u64) -> Vec<Job> {
    let job = |index: u64| -> Job {
        Box::new(move |checker| chains(checker, seed, index, calls.div_ceil(JOBS)))
    };
    (0..JOBS).map(job).collect()
}

/// Chains of scripts until so many calls are made.
fn chains(checker: &mut Checker, seed: u64, job: u64, calls: u64) -> Outcome {
    let mut random = Random(seed ^ job.wrapping_mul(0xD134_2543_DE82_EF95));
    let (mut made, mut number) = (0, 0);
    while made < calls {
        let mut pages = random_pages(&mut random);
        for _ in 0..1 + random.below(6) {
            let script = random_script(&mut random, &pages);
            let out = random_room(&mut random, &script);
            let name = || format!("seed {seed}, job {job}, script {number}");
            pages =
                checker.replay_in(&Case { name: &name, pages: &pages, script: &script, out })?;
            made += script::calls(&script);
            number += 1;
        }
    }
    Ok(())
}

fn random_pages(random: &mut Random) -> Pages {
    let length = random_length(random);
    let other = match random.below(40) {
        0 => random_length(random),
        1 => random.one_of(&[0, 1, 7, 9, length + 1, length + 2]),
        _ => length,
    };
    let words = random_words(random);
    Pages { left: random_page(random, length, words.0), right: random_page(random, other, words.1) }
}

fn random_length(random: &mut Random) -> usize {
    match random.below(100) {
        0..=59 => 8 + 2 * random.below(8),
        60..=74 => 8 + 2 * random.below(130),
        75..=87 => random.one_of(&[4096, 4096, 4094, 4092]),
        88..=92 => 8 + 2 * random.below(2045),
        93..=96 => random.one_of(&[0, 1, 2, 3, 4, 5, 6, 7, 9, 11, 4095, 4097, 4098, 4100]),
        _ => 1 + 2 * random.below(2048),
    }
}

/// Mostly a row of the table, sometimes its words alone or with a bit turned.
fn random_words(random: &mut Random) -> (u32, u32) {
    let (_, left, right, _) = random.one_of(&TABLE);
    match random.below(10) {
        0..=5 => (left, right),
        6 => (random_word(random), right),
        7 => (left, random_word(random)),
        8 => (0xFFFF_FFFF, 0xFFFF_FFFF),
        _ => (random_word(random), random_word(random)),
    }
}

fn random_word(random: &mut Random) -> u32 {
    let word = random.one_of(&[0xFFFFFFFF, 0xFFFFFF00, 0xFFFF0000, 0xFF000000, 0xFF00FFFF]);
    match random.below(8) {
        0..=3 => word,
        4 => word ^ 1 << random.below(32),
        5 => word.swap_bytes(),
        6 => word.rotate_left(16),
        _ => random.next() as u32,
    }
}

/// A page with an image that is blank, full, blank but for one byte, or full to some cell only.
fn random_page(random: &mut Random, length: usize, word: u32) -> Vec<u8> {
    let kind = random.below(5);
    let mut page = if kind < 2 { vec![0xFF; length] } else { random.bytes(length) };
    if length > 4 && kind == 1 {
        let any = 4 + random.below(length - 4);
        let place = random.one_of(&[4, length - 1, any]);
        page[place] ^= 1 << random.below(8);
    }
    if length > 4 && kind == 2 {
        let written = 4 + random.below(length - 4) / 2 * 2;
        page[written..].fill(0xFF);
    }
    for (place, byte) in page.iter_mut().enumerate().take(4) {
        *byte = word.to_le_bytes()[place];
    }
    page
}

/// A script of 1 to 40 calls; one in twenty is damaged.
fn random_script(random: &mut Random, pages: &Pages) -> Vec<u8> {
    let mut script = Vec::new();
    let mut held = 0;
    let p = pages.left.len();
    let most = random.one_of(&[1, 3, 10, 40]);
    for _ in 0..1 + random.below(most) {
        random_call(random, p, &mut held, &mut script);
    }
    if random.chance(5) {
        damage(random, &mut script);
    }
    script
}

fn damage(random: &mut Random, script: &mut Vec<u8>) {
    let place = random.below(script.len());
    match random.below(3) {
        0 => script.truncate(place),
        1 => script[place] = random.next() as u8,
        _ => script.push(random.below(9) as u8),
    }
}

/// One call; `held` is the length of the last save's data, which may have been refused.
fn random_call(random: &mut Random, p: usize, held: &mut usize, script: &mut Vec<u8>) {
    match random.below(100) {
        0..=21 => {
            let (offset, length) = random_part(random, p);
            *held = length;
            let data = random_data(random, length);
            Call::Save { offset, data: &data }.encode(script);
        }
        22..=25 => {
            *held = 0;
            Call::Format.encode(script);
        }
        26..=57 => Call::Steps { count: random_steps(random, p) }.encode(script),
        58..=69 => {
            let some = random.below(7);
            let length = random.one_of(&[*held, *held, *held, *held + 1, *held + 2, 0, some]);
            Call::StepWith { data: &random.bytes(length) }.encode(script);
        }
        70..=80 => {
            let (offset, length) = random_part(random, p);
            let any = random.next() as u32;
            let length = length as u32;
            let huge = [length, any, any | 0xFFFF_FFF0, 4093, 0u32.wrapping_sub(offset)];
            let length = if random.chance(90) { length } else { random.one_of(&huge) };
            Call::Read { offset, length }.encode(script);
        }
        81..=91 => {
            let (offset, length) = random_part(random, p);
            Call::ReadInto { offset, output: &random.bytes(length) }.encode(script);
        }
        _ => {
            *held = 0;
            Call::Cut.encode(script);
        }
    }
}

fn random_data(random: &mut Random, length: usize) -> Vec<u8> {
    match random.below(8) {
        0 => vec![0xFF; length],
        1 => vec![0x00; length],
        _ => random.bytes(length),
    }
}

/// An offset and a length, mostly legal for pages of this length.
fn random_part(random: &mut Random, p: usize) -> (u32, usize) {
    let p = p.max(8);
    let offset = 4 + random.below(p - 4) / 2 * 2;
    match random.below(20) {
        0..=7 => (offset as u32, random.below((p - offset) / 2 + 1).min(8) * 2),
        8..=13 => (offset as u32, random.below((p - offset) / 2 + 1) * 2),
        14 => (4, (p - 4) / 2 * 2),
        15 => (offset as u32, 0),
        16 => (offset as u32, (p - offset) + random.below(5)),
        17 => (random.below(12) as u32, random.below(12)),
        18 => ((p + random.below(8) - 4) as u32, random.below(6)),
        _ => (random.next() as u32 | 0xFFFF_FF00, random.below(6)),
    }
}

/// A number of steps, often one that ends near or past the deciding store.
fn random_steps(random: &mut Random, p: usize) -> u32 {
    let cells = p.saturating_sub(4) / 2;
    let steps = match random.below(10) {
        0..=3 => 1 + random.below(4),
        4..=6 => (cells + random.below(10)).saturating_sub(1),
        7 => random.below(cells + 8),
        8 => random.below(3),
        _ => cells + 7,
    };
    steps as u32
}

/// The length of the output: what is needed, more, or somewhat less.
fn random_room(random: &mut Random, script: &[u8]) -> usize {
    let room = script::room(script).min(300_000) as usize;
    match random.below(20) {
        0 => room.saturating_sub(1 + random.below(4)),
        1 => random.below(room + 1),
        2..=9 => room + random.below(40),
        _ => room,
    }
}
