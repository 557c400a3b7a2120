//! How deep the stack gets in a call: it is made on a stack of its own that was painted before, and
//! the lowest byte that lost its paint is looked for.

use crate::calls::{libraries, replay, Library, ReplayFn, Report};
use crate::plain::Whole;
use crate::rows::{page, ACTIVE, DEAD};
use std::arch::asm;
use std::ffi::c_void;
use std::hint::black_box;

const SIZE: usize = 1 << 16;
const PAINT: u8 = 0xC7;
const P: usize = 4096;

/// What is measured, and its depth in bytes, the return address counted.
pub fn depths() -> Vec<(String, usize)> {
    let [library, ..] = libraries();
    let save = [&call(1, 6, 42)[..], &[0x5A; 42], &call(3, 2052, 0)].concat();
    let format = [call(2, 0, 0), call(3, 4, 0)].concat();
    let read = call(5, 4, 4092).to_vec();
    let read_into = [&call(6, 4, 4092)[..], &[0; 4092]].concat();
    vec![
        ("stack of a save replayed by the exported library, P = 4,096".into(), replayed(&save)),
        ("stack of a format replayed".into(), replayed(&format)),
        ("stack of a read replayed, of a part".into(), replayed(&read)),
        ("stack of a read replayed, into an output".into(), replayed(&read_into)),
        ("stack of a whole save by one call".into(), walked(library, save_settings)),
        ("stack of a whole format by one call".into(), walked(library, Library::format)),
    ]
}

/// A call of a script (docs/FORMATS.md).
fn call(kind: u8, a: u32, b: u32) -> [u8; 9] {
    let mut bytes = [kind; 9];
    bytes[1..5].copy_from_slice(&a.to_le_bytes());
    bytes[5..].copy_from_slice(&b.to_le_bytes());
    bytes
}

fn replayed(script: &[u8]) -> usize {
    let mut out = vec![0; 8192];
    let mut report = Report { status: 9, place: 0 };
    let mut depth = |f: ReplayFn| {
        let (mut left, mut right) = (page(P, ACTIVE), page(P, DEAD));
        // SAFETY: the four buffers are apart, each with its own length.
        measured(|| unsafe {
            report = f(
                left.as_mut_ptr(), P, right.as_mut_ptr(), P, script.as_ptr(), script.len(),
                out.as_mut_ptr(), out.len(),
            )
        })
    };
    let (empty, used) = (depth(black_box(no_replay)), depth(replay()));
    assert_eq!(report.status, 0, "the script is refused");
    used - empty + 8
}

fn save_settings(library: &Library, left: &mut [u8], right: &mut [u8]) -> Whole {
    library.save(left, right, 6, &[0x5A; 42])
}

fn walked(library: Library, walk: fn(&Library, &mut [u8], &mut [u8]) -> Whole) -> usize {
    let mut whole = Whole { number: 9, steps: 0 };
    let mut depth = |l: Library| {
        let (mut left, mut right) = (page(P, ACTIVE), page(P, DEAD));
        measured(|| whole = walk(&l, &mut left, &mut right))
    };
    let (empty, used) = (depth(black_box(library.idle())), depth(library));
    assert_eq!(whole.number, 0, "the walk is refused");
    used - empty + 8
}

unsafe extern "C" fn no_replay(
    _: *mut u8, _: usize, _: *mut u8, _: usize, _: *const u8, _: usize, _: *mut u8, _: usize,
) -> Report {
    Report { status: 0, place: 0 }
}

/// The bytes of stack that a call of the function takes, with the frame that calls it.
fn measured<F: FnMut()>(mut function: F) -> usize {
    let mut stack = vec![PAINT; SIZE];
    let top = (stack.as_mut_ptr() as usize + SIZE) & !15;
    extern "C" fn enter<F: FnMut()>(function: *mut c_void) {
        // SAFETY: `measured` passes a pointer to its function, which lives until the call is over.
        (unsafe { &mut *function.cast::<F>() })()
    }
    // SAFETY: rsp is moved to the painted bytes for the call and put back after it; r12 is kept by
    // what is called, and all that a call may change is named as changed.
    unsafe {
        asm!(
            "xchg rsp, r12",
            "call {enter}",
            "mov rsp, r12",
            enter = in(reg) enter::<F> as extern "C" fn(*mut c_void),
            in("rdi") (&raw mut function).cast::<c_void>(),
            inout("r12") top => _,
            clobber_abi("C"),
        );
    }
    let untouched = stack.iter().take_while(|&&byte| byte == PAINT).count();
    assert!(untouched > 0, "the measured stack is too small");
    top - (stack.as_ptr() as usize + untouched)
}
