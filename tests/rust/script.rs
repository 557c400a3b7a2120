//! Scripts and answers as bytes, by docs/FORMATS.md: how calls are encoded, which scripts are
//! refused and at which byte, and what the model answers to a whole script.

use crate::book::Book;
use crate::faults::Fault;
use crate::model::{Board, Pages, Rules};

pub const REPLAYED: u32 = 0;
pub const MALFORMED: u32 = 1;
pub const NO_ROOM: u32 = 2;

/// The answers that a walk is begun, that a step is made, and that the walk has ended.
pub const BEGUN: u8 = 0x10;
pub const MADE: u8 = 0x11;
pub const ENDED: u8 = 0x12;

/// A call of a script.
#[derive(Clone, Copy)]
pub enum Call<'a> {
    Save { offset: u32, data: &'a [u8] },
    Format,
    Steps { count: u32 },
    StepWith { data: &'a [u8] },
    Read { offset: u32, length: u32 },
    ReadInto { offset: u32, output: &'a [u8] },
    Cut,
}

pub enum Answer<'a> {
    Nothing,
    Number(u8),
    Begun,
    Made,
    Ended,
    Part(&'a [u8]),
    Output(u8, &'a [u8]),
}

impl Answer<'_> {
    pub fn encode(&self, answers: &mut Vec<u8>) {
        match *self {
            Answer::Nothing => answers.push(0x00),
            Answer::Number(number) => answers.push(number),
            Answer::Begun => answers.push(BEGUN),
            Answer::Made => answers.push(MADE),
            Answer::Ended => answers.push(ENDED),
            Answer::Part(bytes) => {
                answers.push(0x20);
                answers.extend_from_slice(bytes);
            }
            Answer::Output(number, bytes) => {
                answers.extend_from_slice(&[0x21, number]);
                answers.extend_from_slice(bytes);
            }
        }
    }
}

/// Nine bytes: the kind of call and the numbers A and B.
pub fn head(kind: u8, a: u32, b: u32) -> Vec<u8> {
    let mut bytes = vec![kind];
    bytes.extend_from_slice(&a.to_le_bytes());
    bytes.extend_from_slice(&b.to_le_bytes());
    bytes
}

impl Call<'_> {
    pub fn encode(&self, script: &mut Vec<u8>) {
        let (kind, a, b, bytes) = match *self {
            Call::Save { offset, data } => (1, offset, data.len() as u32, data),
            Call::Format => (2, 0, 0, &[][..]),
            Call::Steps { count } => (3, count, 0, &[][..]),
            Call::StepWith { data } => (4, 0, data.len() as u32, data),
            Call::Read { offset, length } => (5, offset, length, &[][..]),
            Call::ReadInto { offset, output } => (6, offset, output.len() as u32, output),
            Call::Cut => (7, 0, 0, &[][..]),
        };
        script.extend_from_slice(&head(kind, a, b));
        script.extend_from_slice(bytes);
    }

    /// The bytes that its answers can take at most.
    fn room(&self, rules: Rules) -> u64 {
        match *self {
            Call::Steps { count } => count as u64,
            Call::Read { length, .. } => {
                let long = length > 4092 && !rules.has(Fault::LongReadsNeedRoom);
                if long {
                    1
                } else {
                    1 + length as u64
                }
            }
            Call::ReadInto { output, .. } => 2 + output.len() as u64,
            _ => 1,
        }
    }

    /// The call in the words of a script as text.
    fn words(&self) -> String {
        match *self {
            Call::Save { offset, data } => format!("save {offset} {}", hex(data)),
            Call::Format => "format".to_string(),
            Call::Steps { count } => format!("step {count}"),
            Call::StepWith { data } => format!("step with {}", hex(data)),
            Call::Read { offset, length } => format!("read {offset} {length}"),
            Call::ReadInto { offset, output } => {
                format!("copy {offset} {} (over {})", output.len(), hex(output))
            }
            Call::Cut => "cut".to_string(),
        }
    }
}

pub fn encode(calls: &[Call]) -> Vec<u8> {
    let mut script = Vec::new();
    calls.iter().for_each(|call| call.encode(&mut script));
    script
}

/// Bytes in hexadecimal, a run of equal ones as `FFx4092`; at most some hundred characters.
pub fn hex(bytes: &[u8]) -> String {
    let mut text = String::new();
    let mut rest = bytes;
    while let Some(first) = rest.first() {
        let run = rest.iter().take_while(|byte| *byte == first).count();
        if text.len() > 400 {
            return format!("{text}.. ({} bytes)", bytes.len());
        }
        if run > 4 {
            text.push_str(&format!("[{first:02X}x{run}]"));
            rest = &rest[run..];
        } else {
            text.push_str(&format!("{first:02X}"));
            rest = &rest[1..];
        }
    }
    text
}

fn number_at(bytes: &[u8], place: usize) -> u32 {
    u32::from_le_bytes([bytes[place], bytes[place + 1], bytes[place + 2], bytes[place + 3]])
}

/// The first call of these bytes and how many bytes it takes, or None if it is malformed.
fn decode_first(bytes: &[u8]) -> Option<(Call<'_>, usize)> {
    if bytes.len() < 9 {
        return None;
    }
    let (kind, a, b) = (bytes[0], number_at(bytes, 1), number_at(bytes, 5));
    let own = || bytes[9..].get(..b as usize);
    let call = match kind {
        1 => Call::Save { offset: a, data: own()? },
        2 if a == 0 && b == 0 => Call::Format,
        3 if b == 0 => Call::Steps { count: a },
        4 if a == 0 => Call::StepWith { data: own()? },
        5 => Call::Read { offset: a, length: b },
        6 => Call::ReadInto { offset: a, output: own()? },
        7 if a == 0 && b == 0 => Call::Cut,
        _ => return None,
    };
    let own_bytes = if matches!(kind, 1 | 4 | 6) { b as usize } else { 0 };
    Some((call, 9 + own_bytes))
}

/// The calls of a script, or the status and place with which it is refused for an output of this
/// length.
pub fn decode(rules: Rules, script: &[u8], out: u64) -> Result<Vec<Call<'_>>, (u32, usize)> {
    let mut calls = Vec::new();
    let (mut place, mut room) = (0, 0);
    while place < script.len() {
        let (call, length) = decode_first(&script[place..]).ok_or((MALFORMED, place))?;
        room += call.room(rules);
        if room > out {
            return Err((NO_ROOM, place));
        }
        calls.push(call);
        place += length;
    }
    Ok(calls)
}

/// The room that the answers of a script can take at most; 0 for one that is malformed.
pub fn room(script: &[u8]) -> u64 {
    let rules = Rules { fault: None };
    let calls = decode(rules, script, u64::MAX).unwrap_or_default();
    calls.iter().map(|call| call.room(rules)).sum()
}

/// The number of calls before the script's end or a malformed call.
pub fn calls(script: &[u8]) -> u64 {
    let (mut rest, mut count) = (script, 0);
    while let Some((_, length)) = decode_first(rest) {
        rest = &rest[length..];
        count += 1;
    }
    count
}

/// The script in words, with raw bytes from a malformed call on.
pub fn words(script: &[u8]) -> String {
    let mut text = Vec::new();
    let mut rest = script;
    while !rest.is_empty() {
        match decode_first(rest) {
            Some((call, length)) => {
                text.push(call.words());
                rest = &rest[length..];
            }
            None => {
                text.push(format!("bytes {}", hex(rest)));
                break;
            }
        }
    }
    text.join("; ")
}

/// What a replay has to give: status and place, the answers, and the pages after it.
pub struct Wanted {
    pub status: u32,
    pub place: usize,
    pub answers: Vec<u8>,
    pub pages: Pages,
}

impl Wanted {
    pub fn replayed(answers: Vec<u8>, pages: Pages) -> Wanted {
        Wanted { status: REPLAYED, place: answers.len(), answers, pages }
    }
}

/// What the model wants of a script. Without a planted fault the book is asked too, and an error
/// says that board and book give different answers.
pub fn want(rules: Rules, pages: &Pages, script: &[u8], out: u64) -> Result<Wanted, String> {
    let calls = match decode(rules, script, out) {
        Ok(calls) => calls,
        Err((status, place)) => {
            return Ok(Wanted { status, place, answers: Vec::new(), pages: pages.clone() });
        }
    };
    let mut board = Board::new(rules, pages.clone());
    let mut book = Book::new(rules, pages);
    let (mut answers, mut by_book) = (Vec::new(), Vec::new());
    for call in &calls {
        if rules.fault.is_none() {
            book.make(call, &board.pages, &mut by_book);
        }
        board.make(call, &mut answers);
        if rules.fault.is_none() && by_book.len() != answers.len() {
            break;
        }
    }
    if rules.fault.is_none() && by_book != answers {
        return Err(format!("board {}, book {}", hex(&answers), hex(&by_book)));
    }
    Ok(Wanted::replayed(answers, board.pages))
}

/// The call of a replayed script that gives the answers' byte at this place.
pub fn call_of(rules: Rules, pages: &Pages, script: &[u8], place: usize) -> String {
    let mut board = Board::new(rules, pages.clone());
    let mut answers = Vec::new();
    for (index, call) in decode(rules, script, u64::MAX).unwrap_or_default().iter().enumerate() {
        board.make(call, &mut answers);
        if place < answers.len() {
            return format!("call {} ({})", index + 1, call.words());
        }
    }
    "no call".to_string()
}
