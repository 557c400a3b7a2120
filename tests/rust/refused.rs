//! Scripts that are malformed or have no room for their answers, and lengths beyond 32 bits.

use crate::buffers::Huge;
use crate::cases::{data, group, pages, Dirt, Group, Job};
use crate::compare::{replay_huge, Case, Checker, Difference, Outcome};
use crate::model::Pages;
use crate::script::{encode, head, room, Call};

/// Scripts that are malformed or lack room, after scripts of none to all kinds of call.
pub fn refused_scripts() -> Group {
    let jobs: Vec<Job> = vec![
        Box::new(malformed_calls),
        Box::new(scripts_cut_short),
        Box::new(bytes_replaced),
        Box::new(room_of_every_length),
        Box::new(room_of_long_reads),
        Box::new(malformed_and_no_room),
    ];
    group("refused scripts", jobs)
}

fn a_start() -> Pages {
    pages(8, (0xFFFF0000, 0xFF000000), (Dirt::Full, Dirt::Last))
}

/// A script with every kind of call.
fn all_kinds() -> Vec<u8> {
    let (two, four) = (data(2), data(4));
    encode(&[
        Call::Save { offset: 6, data: &two },
        Call::Steps { count: 5 },
        Call::StepWith { data: &two },
        Call::Read { offset: 4, length: 4 },
        Call::Format,
        Call::ReadInto { offset: 4, output: &four },
        Call::Cut,
    ])
}

fn prefixes() -> Vec<Vec<u8>> {
    let bytes = data(6);
    vec![
        Vec::new(),
        encode(&[Call::Cut]),
        encode(&[Call::Save { offset: 4, data: &bytes[..2] }, Call::Steps { count: 6 }]),
        encode(&[
            Call::ReadInto { offset: 4, output: &bytes },
            Call::Read { offset: 5, length: 2 },
        ]),
        all_kinds(),
    ]
}

/// Calls of an unknown kind, with other than 0 where 0 is due, or whose bytes aren't all there.
fn malformed() -> Vec<Vec<u8>> {
    let mut calls = Vec::new();
    for kind in [0, 8, 9, 0x10, 0x80, 0x81, 0xFF] {
        calls.push(head(kind, 0, 0));
    }
    for shift in 0..32 {
        let bit = 1 << shift;
        calls.extend([head(2, bit, 0), head(2, 0, bit), head(3, 1, bit), head(4, bit, 0)]);
        calls.extend([head(7, bit, 0), head(7, 0, bit)]);
    }
    for kind in [1, 4, 6] {
        let a = if kind == 4 { 0 } else { 4 };
        for length in [1, 2, 255, 256, 4096, 0x7FFF_FFFF, 0x8000_0000, 0xFFFF_FFF6, 0xFFFF_FFFF] {
            calls.push(head(kind, a, length));
        }
        for missing in 1..4 {
            calls.push([head(kind, a, 6 + missing), data(6)].concat());
        }
    }
    for kind in 1..8 {
        (1..9).for_each(|length| calls.push(head(kind, 0, 0)[..length].to_vec()));
    }
    calls
}

fn malformed_calls(checker: &mut Checker) -> Outcome {
    for (index, prefix) in prefixes().iter().enumerate() {
        for call in malformed() {
            let script = [&prefix[..], &call].concat();
            let name = || format!("malformed call {call:02X?} after script {index}");
            let out = room(prefix) as usize + 9;
            checker.replay_in(&Case { name: &name, pages: &a_start(), script: &script, out })?;
        }
    }
    Ok(())
}

fn scripts_cut_short(checker: &mut Checker) -> Outcome {
    let script = all_kinds();
    for length in 0..=script.len() {
        let name = || format!("a script cut short after {length} bytes");
        let script = &script[..length];
        checker.replay_in(&Case { name: &name, pages: &a_start(), script, out: 40 })?;
    }
    Ok(())
}

/// Every byte of a script replaced by every other, with an output that has some room to spare.
fn bytes_replaced(checker: &mut Checker) -> Outcome {
    let script = all_kinds();
    for place in 0..script.len() {
        for byte in 0..=255 {
            let mut script = script.clone();
            script[place] = byte;
            let name = || format!("byte {place} of a script is {byte:02X}");
            checker.replay_in(&Case {
                name: &name,
                pages: &a_start(),
                script: &script,
                out: 280,
            })?;
        }
    }
    Ok(())
}

/// Outputs of every length from none to what is needed and some more.
fn room_of_every_length(checker: &mut Checker) -> Outcome {
    for (index, script) in prefixes().iter().enumerate() {
        for out in 0..room(script) as usize + 3 {
            let name = || format!("script {index} with an output of {out} bytes");
            checker.replay_in(&Case { name: &name, pages: &a_start(), script, out })?;
        }
    }
    Ok(())
}

/// Reads around 4,092 bytes and steps around what is left, with room for all but one byte.
fn room_of_long_reads(checker: &mut Checker) -> Outcome {
    let start = pages(4096, (0xFFFF0000, 0xFFFFFFFF), (Dirt::Full, Dirt::Clean));
    let reads = [4088, 4090, 4091, 4092, 4093, 4094, 4096, 0x8000_0000, 0xFFFF_FFFE, 0xFFFF_FFFF];
    let reads = reads.map(|length| Call::Read { offset: 4, length });
    let output = data(4092);
    let into =
        [4090, 4091, 4092].map(|length| Call::ReadInto { offset: 4, output: &output[..length] });
    let steps = [2, 4092, 4093, 0x7FFF_FFFF, 0x8000_0000, 0xFFFF_FFFE, 0xFFFF_FFFF];
    let steps = steps.map(|count| Call::Steps { count });
    for call in reads.into_iter().chain(into).chain(steps) {
        for (index, before) in prefixes().iter().enumerate() {
            let script = [&before[..], &encode(&[call])].concat();
            for less in 0..3 {
                let out = (room(&script).min(9000) as usize).saturating_sub(less);
                let name = || format!("room of script {index}, output of {out} bytes");
                checker.replay_in(&Case { name: &name, pages: &start, script: &script, out })?;
            }
        }
    }
    Ok(())
}

/// A malformed call and one without room in one script: the earlier decides.
fn malformed_and_no_room(checker: &mut Checker) -> Outcome {
    let steps = encode(&[Call::Steps { count: 1000 }]);
    for (index, before) in prefixes().iter().enumerate() {
        for call in malformed() {
            let first = [&before[..], &steps, &call].concat();
            let second = [&before[..], &call, &steps].concat();
            for script in [first, second] {
                for out in [room(before) as usize, room(before) as usize + 999] {
                    let name = || format!("malformed {call:02X?} and no room, script {index}");
                    checker.replay_in(&Case {
                        name: &name,
                        pages: &a_start(),
                        script: &script,
                        out,
                    })?;
                }
            }
        }
    }
    Ok(())
}

/// Lengths of 2^16, 2^31 or 2^32 and some, which must not be taken for the rest.
pub fn lengths_beyond_32_bits() -> Group {
    group("lengths beyond 16 and 32 bits", vec![Box::new(huge_lengths)])
}

fn huge_lengths(checker: &mut Checker) -> Outcome {
    const MORE: usize = 1 << 32;
    let erased = [0xFF; 8];
    let reads = encode(&[Call::Format, Call::Read { offset: 4, length: 2 }]);
    let cut = encode(&[Call::Cut]);
    // Lengths of LEFT, RIGHT and output, the script and its length; status, place and answers.
    let cases: [([usize; 3], &[u8], usize, (u32, usize), &[u8]); 8] = [
        ([65544, 65544, 4], &reads, 18, (0, 2), &[1, 1]),
        ([MORE / 2 + 8, MORE / 2 + 8, 4], &reads, 18, (0, 2), &[1, 1]),
        ([MORE + 8, MORE + 8, 4], &reads, 18, (0, 2), &[1, 1]),
        ([MORE + 8, 8, 4], &reads, 18, (0, 2), &[1, 1]),
        ([8, MORE + 8, 4], &reads, 18, (0, 2), &[1, 1]),
        ([8, 8, MORE], &reads, 18, (0, 2), &[0x10, 5]),
        ([8, 8, MORE + 1], &reads, 18, (0, 2), &[0x10, 5]),
        ([8, 8, 4], &cut, MORE + 9, (1, 9), &[]),
    ];
    for ([left, right, out], script, length, wanted, answers) in cases {
        let mut left = filled(left, &erased);
        let mut right = filled(right, &erased);
        let (mut script, mut out) = (filled(length, script), filled(out, &[0xAA; 4]));
        let got = replay_huge(&mut left, &mut right, &mut script, &mut out);
        let kept = [answers, &[0xAA; 4][answers.len()..]].concat();
        let same = got == wanted
            && out.first(4) == &kept[..]
            && left.first(8) == &erased[..]
            && right.first(8) == &erased[..];
        checker.counts.replays += 1;
        checker.counts.comparisons += 4;
        if !same {
            let case = format!("lengths {} {} {}", left.lend().1, right.lend().1, script.lend().1);
            let text = format!("output of {}: got {got:?}, wanted {wanted:?}", out.lend().1);
            return Err(Difference { case, text });
        }
    }
    Ok(())
}

/// A mapping of this length that holds these bytes first.
fn filled(length: usize, first: &[u8]) -> Huge {
    let mut huge = Huge::new(length);
    huge.first(first.len()).copy_from_slice(first);
    huge
}
