//! A program on Linux for x86-64 that has neither std nor libc, and decodes through the wrapper. Its status says what came
//! of it: 0 where each answer is right, else the number of the one that is not. `tests/no_std.rs` of the wrapper runs it.

#![no_std]
#![no_main]

use core::arch::{asm, global_asm};
use core::panic::PanicInfo;
use wasnugram::{baum_welch, exp, viterbi, Estimates, Model, Refusal, Shape, Table};

const SHAPE: Shape = Shape {
    states: 2,
    symbols: 2,
    ends: false,
};
const SAMPLES: [u16; 3] = [0, 1, 1];
const CELLS: usize = SHAPE.cells(SAMPLES.len());

const MODEL: Model = Model {
    shape: SHAPE,
    transition: &[-1.0, -2.0, -2.0, -1.0],
    emission: &[-1.0, -3.0, -3.0, -1.0],
    initial: &[-1.0, -2.0],
    end: &[0.0, 0.0],
};

// The stack is aligned here, and a call moves it to where a function expects it.
global_asm!(".globl _start", "_start: call {start}", start = sym start);

extern "C" fn start() -> ! {
    let checks = [decodes(), refuses(), trains(), exp(0.0) == Ok(1.0)];
    let wrong = checks.iter().position(|check| !check);
    end(wrong.map_or(0, |at| at + 1))
}

fn decodes() -> bool {
    let (mut path, mut values, mut from) = ([0; SAMPLES.len()], [0.0; CELLS], [0; CELLS]);
    match viterbi(&MODEL, &SAMPLES, &mut path, &mut values, &mut from) {
        Ok(decoded) => decoded.is_possible() && decoded.path == [0, 1, 1] && decoded.value == -7.0,
        Err(_) => false,
    }
}

fn refuses() -> bool {
    let flipped = Model {
        initial: &[-1.0, 2.0],
        ..MODEL
    };
    match viterbi(&flipped, &[], &mut [], &mut [], &mut []) {
        Ok(_) => false,
        Err(refused) => (refused.refusal, refused.table, refused.place) == (Refusal::NotGood, Some(Table::Initial), 1),
    }
}

fn trains() -> bool {
    let mut new = Estimates {
        new_transition: &mut [0.0; SHAPE.transition_length()],
        new_emission: &mut [0.0; SHAPE.emission_length()],
        new_initial: &mut [0.0; SHAPE.states],
        new_end: &mut [0.0; SHAPE.states],
        alpha: &mut [0.0; CELLS],
        beta: &mut [0.0; CELLS],
    };
    baum_welch(&MODEL, &SAMPLES, &mut new).is_ok() && new.new_transition.iter().all(|entry| *entry < 0.0)
}

fn end(status: usize) -> ! {
    // Safe: the call that ends a process takes its status and does not come back.
    unsafe { asm!("syscall", in("rax") 60, in("rdi") status, options(noreturn)) }
}

#[panic_handler]
fn panicked(_: &PanicInfo) -> ! {
    end(255)
}

/// The two functions that the archive takes from its surroundings. Safe as C's are: the caller lends so many bytes.
#[no_mangle]
unsafe extern "C" fn memcpy(to: *mut u8, from: *const u8, count: usize) -> *mut u8 {
    asm!("rep movsb", inout("rcx") count => _, inout("rdi") to => _, inout("rsi") from => _, options(nostack, preserves_flags));
    to
}

#[no_mangle]
unsafe extern "C" fn memset(to: *mut u8, byte: i32, count: usize) -> *mut u8 {
    asm!("rep stosb", inout("rcx") count => _, inout("rdi") to => _, in("al") byte as u8, options(nostack, preserves_flags));
    to
}
