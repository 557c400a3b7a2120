//! The directed cases: all groups of them, and those of lines, of erased-or-not, of numbers at
//! their edges, of reads and of the walk in hand.

use crate::cases::{
    case_name, data, group, page, pages, pairs, read_all, saves, whole_walk, Dirt, Group, Job,
    Request,
};
use crate::compare::{Case, Checker, Outcome};
use crate::cuts::{cuts_of_long_pages, cuts_of_short_pages, second_cuts};
use crate::model::{Board, Pages, TABLE};
use crate::refused::{lengths_beyond_32_bits, refused_scripts};
use crate::script::{encode, Call, Wanted, BEGUN, ENDED, MADE};

/// All groups. Those that take long come last, and that of P = 4,096 as the very last.
pub fn groups() -> Vec<Group> {
    vec![
        cuts_of_short_pages(8),
        counts_of_steps(),
        lines_of_near_words(),
        reads_of_every_part(),
        walk_in_hand(),
        refused_scripts(),
        lengths_beyond_32_bits(),
        numbers_at_the_edges(),
        erased_or_not(),
        second_cuts(),
        cuts_of_short_pages(10),
        cuts_of_short_pages(12),
        cuts_of_short_pages(64),
        cuts_of_long_pages(),
    ]
}

/// Words, dirt of LEFT and RIGHT, and how many steps a save has beside its C image cells: the
/// paper's table of counts.
const COUNTS: [(u32, u32, Dirt, Dirt, usize); 15] = [
    (0xFFFFFFFF, 0xFFFFFFFF, Dirt::Clean, Dirt::Clean, 3),
    (0xFFFFFFFF, 0xFFFFFFFF, Dirt::Last, Dirt::Clean, 6),
    (0xFFFFFFFF, 0xFFFFFFFF, Dirt::Clean, Dirt::Last, 6),
    (0xFFFF0000, 0xFFFF0000, Dirt::Clean, Dirt::Clean, 6),
    (0xFFFF0000, 0xFFFFFFFF, Dirt::Full, Dirt::Clean, 3),
    (0xFFFF0000, 0xFFFFFFFF, Dirt::Full, Dirt::Last, 4),
    (0xFFFFFFFF, 0xFFFF0000, Dirt::Clean, Dirt::Full, 3),
    (0xFFFFFFFF, 0xFFFF0000, Dirt::Last, Dirt::Full, 4),
    (0xFFFF0000, 0xFF000000, Dirt::Full, Dirt::Clean, 4),
    (0xFF000000, 0xFFFF0000, Dirt::Clean, Dirt::Full, 4),
    (0xFFFF0000, 0xFF00FFFF, Dirt::Full, Dirt::Clean, 5),
    (0xFF000000, 0xFFFFFF00, Dirt::Clean, Dirt::Full, 5),
    (0xFFFFFF00, 0xFF000000, Dirt::Full, Dirt::Clean, 5),
    (0xFFFF0000, 0xFFFFFF00, Dirt::Clean, Dirt::Full, 6),
    (0xFFFFFF00, 0xFFFF0000, Dirt::Full, Dirt::Clean, 6),
];

/// The counts of steps, as the paper's table gives them and not the model's list.
fn counts_of_steps() -> Group {
    let job = |p| -> Job {
        Box::new(move |checker| COUNTS.iter().try_for_each(|row| count_of(checker, p, row)))
    };
    group("the table of counts", [8, 10, 12, 64, 4094, 4096].map(job).into())
}

fn count_of(checker: &mut Checker, p: usize, row: &(u32, u32, Dirt, Dirt, usize)) -> Outcome {
    let (words, dirt, count) = ((row.0, row.1), (row.2, row.3), (p - 4) / 2 + row.4);
    let start = pages(p, words, dirt);
    let request = Request::Save(4, data(2));
    let calls = [request.call(), Call::Steps { count: count as u32 + 1 }];
    let mut board = Board::new(checker.rules, start.clone());
    calls.iter().for_each(|call| board.make(call, &mut Vec::new()));
    let answers = [&[BEGUN][..], &vec![MADE; count], &[ENDED]].concat();
    let name = || format!("{}, {count} steps", case_name(p, words, dirt, &request));
    let case = Case { name: &name, pages: &start, script: &encode(&calls), out: answers.len() };
    checker.compare(&case, &Wanted::replayed(answers, board.pages))
}

/// Each table row with one bit of either word turned, and all words of bytes 00, 7F and FF.
fn lines_of_near_words() -> Group {
    let mut jobs: Vec<Job> = vec![Box::new(|checker| {
        for (_, left, right, _) in TABLE {
            (0..32).try_for_each(|bit| line_of(checker, (left ^ 1 << bit, right)))?;
            (0..32).try_for_each(|bit| line_of(checker, (left, right ^ 1 << bit)))?;
        }
        Ok(())
    })];
    for part in 0..9 {
        jobs.push(Box::new(move |checker| {
            (0..729).try_for_each(|rest| line_of(checker, words_of_digits(part * 729 + rest)))
        }));
    }
    group("lines of near words, P = 8", jobs)
}

/// The words whose eight bytes are the eight digits of a number of base 3.
fn words_of_digits(mut number: u32) -> (u32, u32) {
    let mut digit = || {
        let byte = [0x00, 0x7F, 0xFF][number as usize % 3];
        number /= 3;
        byte
    };
    let mut word = || u32::from_le_bytes([digit(), digit(), digit(), digit()]);
    (word(), word())
}

fn line_of(checker: &mut Checker, words: (u32, u32)) -> Outcome {
    for dirt in [(Dirt::Clean, Dirt::Clean), (Dirt::Full, Dirt::Full)] {
        let start = pages(8, words, dirt);
        let output = data(4);
        let [part, into] = read_all(&output);
        let calls = [part, into, Call::Format, Call::Steps { count: 1 }, part];
        let request = Request::Save(4, data(2));
        let name = || case_name(8, words, dirt, &request);
        checker.replay(&name, &start, &encode(&calls), 3)?;
        whole_walk(checker, &name, &start, &request)?;
    }
    Ok(())
}

/// One bit of one byte that isn't FF, at every place of either image, where erased-or-not counts.
fn erased_or_not() -> Group {
    let mut jobs: Vec<Job> = Vec::new();
    for p in (8..=80).step_by(2).chain([4094, 4096]) {
        for words in [(0xFFFFFFFF, 0xFFFFFFFF), (0xFFFF0000, 0xFFFFFFFF), (0xFFFFFFFF, 0xFFFF0000)]
        {
            jobs.push(Box::new(move |checker| {
                (4..p).try_for_each(|place| one_bit_dirty(checker, p, words, place))
            }));
        }
    }
    group("erased but for one bit", jobs)
}

fn one_bit_dirty(checker: &mut Checker, p: usize, words: (u32, u32), place: usize) -> Outcome {
    let bit = 1u8 << (place * 5 % 8);
    let clean = pages(p, words, (Dirt::Clean, Dirt::Clean));
    let (mut left, mut right) = (clean.clone(), clean);
    left.left[place] ^= bit;
    right.right[place] ^= bit;
    for start in [left, right] {
        for request in [Request::Save(4, data(2)), Request::Format] {
            let script = encode(&[request.call(), Call::Steps { count: 3 }]);
            let name = || {
                let words = format!("{:08X} {:08X}", words.0, words.1);
                format!("P {p}, words {words}, byte {place} not FF, {}", request.name())
            };
            checker.replay(&name, &start, &script, 1)?;
        }
    }
    Ok(())
}

/// Lengths of pages, offsets and lengths around every limit.
fn numbers_at_the_edges() -> Group {
    let lengths = [0, 1, 2, 4, 6, 7, 8, 9, 10, 12, 4094, 4095, 4096, 4097, 4098, 4100];
    let mut jobs: Vec<Job> = Vec::new();
    for left in lengths {
        jobs.push(Box::new(move |checker| {
            for right in lengths {
                for words in [(0xFFFF0000, 0xFF000000), (0xFFFFFFFF, 0xFFFF0000), (0, 0)] {
                    numbers_on_pages(checker, left, right, words)?;
                }
            }
            Ok(())
        }));
    }
    group("numbers at the edges", jobs)
}

fn numbers_on_pages(
    checker: &mut Checker,
    left: usize,
    right: usize,
    words: (u32, u32),
) -> Outcome {
    let pages = Pages {
        left: page(left, words.0, Dirt::Full, 1),
        right: page(right, words.1, Dirt::Full, 2),
    };
    let many = left == right || words.0 == 0xFFFF0000;
    for offset in edge_offsets(left as u32).into_iter().step_by(if many { 1 } else { 3 }) {
        for length in edge_lengths(left as u32, offset) {
            numbers_of(checker, &pages, offset, length)?;
        }
    }
    Ok(())
}

fn edge_offsets(p: u32) -> Vec<u32> {
    let mut offsets: Vec<u32> = (0..10).collect();
    offsets.extend((0..6).map(|n| (p + n).wrapping_sub(3)));
    offsets.extend([0x7FFF_FFFE, 0x7FFF_FFFF, 0x8000_0000, 0x8000_0004]);
    offsets.extend((0..4).map(|n| 0xFFFF_FFFC + n));
    offsets
}

fn edge_lengths(p: u32, offset: u32) -> Vec<u32> {
    let mut lengths: Vec<u32> = (0..4).collect();
    lengths.extend((0..5).map(|n| p.wrapping_sub(offset).wrapping_add(n).wrapping_sub(2)));
    lengths.extend(4091..4099);
    lengths.extend([0x7FFF_FFFE, 0x8000_0000, 0x8000_0004]);
    lengths.extend((0..4).map(|n| 0xFFFF_FFFC + n));
    lengths
}

/// One pair of numbers: a part, an output and a save alone, and a save beside a walk in hand.
fn numbers_of(checker: &mut Checker, pages: &Pages, offset: u32, length: u32) -> Outcome {
    let name = || {
        let (left, right) = (pages.left.len(), pages.right.len());
        format!("pages of {left} and {right} bytes, offset {offset}, length {length}")
    };
    checker.replay(&name, pages, &encode(&[Call::Read { offset, length }]), 0)?;
    if length > 4200 {
        return Ok(());
    }
    let bytes = data(length as usize);
    checker.replay(&name, pages, &encode(&[Call::ReadInto { offset, output: &bytes }]), 0)?;
    checker.replay(&name, pages, &encode(&[Call::Save { offset, data: &bytes }]), 0)?;
    let held = data(2);
    let one = Call::Steps { count: 1 };
    let calls = [
        Call::Save { offset: 6, data: &held },
        one,
        Call::Save { offset, data: &bytes },
        one,
        Call::StepWith { data: &bytes },
        Call::StepWith { data: &held },
        Call::Format,
        Call::StepWith { data: &[] },
    ];
    checker.replay(&name, pages, &encode(&calls), 2).map(|_| ())
}

/// Every offset and length on pages of up to 64 bytes, of each live side and of none.
fn reads_of_every_part() -> Group {
    let mut jobs: Vec<Job> = Vec::new();
    for p in [8, 10, 12, 64] {
        for words in [(0xFFFF0000, 0xFF00FFFF), (0xFF000000, 0xFFFFFF00), (0xFF000000, 0xFFFFFFFF)]
        {
            jobs.push(Box::new(move |checker| {
                let start = pages(p, words, (Dirt::Full, Dirt::Full));
                (0..p + 3).try_for_each(|offset| every_length(checker, &start, offset))
            }));
        }
    }
    group("reads of every part", jobs)
}

fn every_length(checker: &mut Checker, start: &Pages, offset: usize) -> Outcome {
    let (p, offset) = (start.left.len(), offset as u32);
    for length in 0..p + 3 {
        let output = data(length);
        let name = || format!("P {p}, offset {offset}, length {length}");
        let part = encode(&[Call::Read { offset, length: length as u32 }]);
        checker.replay(&name, start, &part, 0)?;
        checker.replay(&name, start, &encode(&[Call::ReadInto { offset, output: &output }]), 0)?;
    }
    Ok(())
}

/// The walk in hand: no walk, other lengths of data at every place, refused and new beginnings.
fn walk_in_hand() -> Group {
    let mut jobs: Vec<Job> = Vec::new();
    for p in [8, 10, 12, 64] {
        for words in pairs() {
            jobs.push(Box::new(move |checker| {
                for dirt in [(Dirt::Clean, Dirt::Full), (Dirt::Full, Dirt::Clean)] {
                    walks_on(checker, p, words, dirt)?;
                }
                Ok(())
            }));
        }
    }
    group("the walk in hand", jobs)
}

fn walks_on(checker: &mut Checker, p: usize, words: (u32, u32), dirt: (Dirt, Dirt)) -> Outcome {
    let start = pages(p, words, dirt);
    for request in saves(p).iter().chain([&Request::Format]) {
        for script in
            [no_walk(), disturbed(p, request), replaced(p, request), other_bytes(p, request)]
        {
            let name = || format!("{}, the walk in hand", case_name(p, words, dirt, request));
            checker.replay(&name, &start, &script, 4)?;
        }
    }
    Ok(())
}

/// Steps with no walk, before any and after a cut.
fn no_walk() -> Vec<u8> {
    let two = data(2);
    let steps =
        [Call::Steps { count: 2 }, Call::StepWith { data: &[] }, Call::StepWith { data: &two }];
    let begun = [Call::Format, Call::Steps { count: 1 }, Call::Cut];
    [
        encode(&steps),
        encode(&begun),
        encode(&steps),
        encode(&[Call::Cut, Call::Cut]),
        encode(&steps),
    ]
    .concat()
}

/// A walk to past its end. Before every step: data of other lengths, beginnings that are refused,
/// and reads.
fn disturbed(p: usize, request: &Request) -> Vec<u8> {
    let (two, three, long) = (data(2), data(3), data(p));
    let output = data(p - 4);
    let [part, into] = read_all(&output);
    let disturbances = [
        Call::StepWith { data: &three },
        Call::StepWith { data: &long },
        Call::Save { offset: 5, data: &two },
        Call::Save { offset: 2, data: &two },
        Call::Save { offset: p as u32, data: &[] },
        Call::Save { offset: 6, data: &output },
        Call::Steps { count: 0 },
        part,
        into,
        Call::Steps { count: 1 },
    ];
    let mut script = encode(&[request.call()]);
    let other_lengths = match request {
        Request::Save(_, data) if data.len() == 2 => encode(&[Call::StepWith { data: &[] }]),
        _ => encode(&[Call::StepWith { data: &two[..1] }]),
    };
    for _ in 0..p / 2 + 6 {
        script.extend_from_slice(&other_lengths);
        script.extend_from_slice(&encode(&disturbances));
    }
    script
}

/// Beginnings that replace the walk in hand at every place, with data of another length.
fn replaced(p: usize, request: &Request) -> Vec<u8> {
    let whole = data(p - 4);
    let mut script = Vec::new();
    for steps in 0..(p as u32) / 2 + 6 {
        let again = Call::Save { offset: 4, data: &whole };
        let step = Call::Steps { count: steps };
        script.extend_from_slice(&encode(&[request.call(), step, again, step, Call::Format]));
        script.extend_from_slice(&encode(&[Call::StepWith { data: &[] }]));
    }
    script
}

/// A walk by steps of kind 4 whose bytes are as many as the held ones, and others.
fn other_bytes(p: usize, request: &Request) -> Vec<u8> {
    let bytes = match request {
        Request::Save(_, data) => data.iter().map(|byte| byte ^ 0x3C).collect(),
        Request::Format => Vec::new(),
    };
    let mut script = encode(&[request.call()]);
    for _ in 0..p / 2 + 6 {
        script.extend_from_slice(&encode(&[Call::StepWith { data: &bytes }]));
    }
    script
}
