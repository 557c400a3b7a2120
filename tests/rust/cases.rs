//! What the directed cases are made of: groups of them, pairs of words, images, requests, and a
//! walk from its beginning to its end.

use crate::compare::{Case, Checker, Outcome};
use crate::model::{Board, Pages};
use crate::script::{encode, room, Call, Wanted};

/// Some cases that one thread checks in order.
pub type Job = Box<dyn Fn(&mut Checker) -> Outcome + Send + Sync>;

/// Jobs of one kind, and how the run names them.
pub struct Group {
    pub name: String,
    pub jobs: Vec<Job>,
}

pub fn group(name: impl Into<String>, jobs: Vec<Job>) -> Group {
    Group { name: name.into(), jobs }
}

const WORDS: [u32; 5] = [0xFFFFFFFF, 0xFFFFFF00, 0xFFFF0000, 0xFF000000, 0xFF00FFFF];

/// Pairs that are line 0 by one bit, by the order of bytes or halves, or by Spare.
const OTHER_PAIRS: [(u32, u32); 20] = [
    (0xFFFF0001, 0xFFFFFFFF),
    (0xFFFF8000, 0xFFFFFFFF),
    (0xFFFE0000, 0xFFFFFFFF),
    (0x7FFF0000, 0xFFFFFFFF),
    (0xFFFF0000, 0xFFFFFFFE),
    (0xFFFF0000, 0xFFFFFEFF),
    (0xFFFF0000, 0xFF01FFFF),
    (0xFFFF0000, 0xFE000000),
    (0xFFFF0000, 0xFFFFFF80),
    (0xFF000000, 0xFFFFFF01),
    (0xFF000000, 0xFFFF0100),
    (0xFFFFFFFF, 0xFF7F0000),
    (0xFFFFFF00, 0x00FF0000),
    (0xFFFFFE00, 0xFF000000),
    (0x0000FFFF, 0xFFFFFFFF),
    (0xFFFF0000, 0x00FFFFFF),
    (0x000000FF, 0xFFFF0000),
    (0x00000000, 0x00000000),
    (0x00000000, 0xFFFF0000),
    (0xFFFF0000, 0x00000000),
];

pub fn pairs() -> Vec<(u32, u32)> {
    let of_words = WORDS.iter().flat_map(|left| WORDS.iter().map(|right| (*left, *right)));
    of_words.chain(OTHER_PAIRS).collect()
}

/// What an image holds.
#[derive(Clone, Copy, Debug)]
pub enum Dirt {
    Clean,
    Full,
    First,
    Last,
}

pub const DIRT: [Dirt; 4] = [Dirt::Clean, Dirt::Full, Dirt::First, Dirt::Last];

pub fn page(length: usize, word: u32, dirt: Dirt, salt: usize) -> Vec<u8> {
    let mut page = vec![0xFF; length];
    for (place, byte) in page.iter_mut().enumerate().take(4) {
        *byte = word.to_le_bytes()[place];
    }
    match dirt {
        _ if length <= 4 => {}
        Dirt::Clean => {}
        Dirt::Full => (4..length).for_each(|place| page[place] = pattern(place, salt)),
        Dirt::First => page[4] = 0xFE,
        Dirt::Last => page[length - 1] = 0x7F,
    }
    page
}

/// Bytes that differ between neighbours, cells, pages and data; never FF.
fn pattern(place: usize, salt: usize) -> u8 {
    ((place * 31 + (place >> 8) * 7 + salt * 77) % 255) as u8
}

pub fn pages(length: usize, words: (u32, u32), dirt: (Dirt, Dirt)) -> Pages {
    Pages { left: page(length, words.0, dirt.0, 1), right: page(length, words.1, dirt.1, 2) }
}

pub fn data(length: usize) -> Vec<u8> {
    (0..length).map(|place| pattern(place, 3)).collect()
}

/// A request with its data, held for as long as a case lasts.
#[derive(Clone, Debug)]
pub enum Request {
    Save(u32, Vec<u8>),
    Format,
}

impl Request {
    pub fn call(&self) -> Call<'_> {
        match self {
            Request::Save(offset, data) => Call::Save { offset: *offset, data },
            Request::Format => Call::Format,
        }
    }

    pub fn name(&self) -> String {
        match self {
            Request::Save(offset, data) => format!("save of {} at {offset}", data.len()),
            Request::Format => "format".to_string(),
        }
    }
}

/// Saves at the start, in the middle, at the end, of the whole image, of nothing and of FF.
pub fn saves(p: usize) -> Vec<Request> {
    let middle = 4 + (p - 4) / 4 * 2;
    let of = |offset: usize, length| Request::Save(offset as u32, data(length));
    vec![
        of(4, 2),
        of(middle, 2),
        of(p - 2, 2),
        of(4, p - 4),
        of(middle, 0),
        Request::Save(4, vec![0xFF; 2]),
    ]
}

/// Both reads of the whole image.
pub fn read_all(output: &[u8]) -> [Call<'_>; 2] {
    [Call::Read { offset: 4, length: output.len() as u32 }, Call::ReadInto { offset: 4, output }]
}

/// Begins a request on these pages, steps it to one past its end, reads, and hands back the pages.
pub fn whole_walk(
    checker: &mut Checker,
    name: &dyn Fn() -> String,
    pages: &Pages,
    request: &Request,
) -> Outcome<Pages> {
    let mut board = Board::new(checker.rules, pages.clone());
    let mut answers = Vec::new();
    board.make(&request.call(), &mut answers);
    let output = data(pages.left.len() - 4);
    let [part, into] = read_all(&output);
    let rest = [Call::Steps { count: board.total() + 1 }, part, into];
    rest.iter().for_each(|call| board.make(call, &mut answers));
    let script = encode(&[request.call(), rest[0], rest[1], rest[2]]);
    let case = Case { name, pages, script: &script, out: room(&script) as usize };
    checker.compare(&case, &Wanted::replayed(answers, board.pages.clone()))?;
    Ok(board.pages)
}

pub fn case_name(p: usize, words: (u32, u32), dirt: (Dirt, Dirt), request: &Request) -> String {
    format!(
        "P {p}, words {:08X} {:08X}, images {:?} {:?}, {}",
        words.0,
        words.1,
        dirt.0,
        dirt.1,
        request.name()
    )
}
