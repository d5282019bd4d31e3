//! How deep each call touches the stack: it runs on a stack of its own that was painted before.

use std::arch::asm;
use std::ffi::c_void;

use driver::boundary::{self, Record, Session};
use oracle::chosen_layouts::houses;
use oracle::layout_line::Layout;

/// The painted stack, in bytes; and its paint. Arbitrary: far more than a call takes, and no byte that code writes often.
const SIZE: usize = 4 << 20;
const PAINT: u8 = 0xa5;

/// The most that a call may touch: half of a thread of 512 KB, so that the caller has the other half.
pub const BOUND: usize = 256 << 10;

/// Runs the closure behind p.
extern "C" fn run<F: FnMut()>(p: *mut c_void) {
    unsafe { (*p.cast::<F>())() }
}

/// The bytes of a painted stack that f touched, from the first painted byte that it changed up to where it began.
fn touched<F: FnMut()>(mut f: F) -> usize {
    let mut stack = vec![PAINT; SIZE];
    let top = (stack.as_mut_ptr() as usize + SIZE) & !63;
    let enter: extern "C" fn(*mut c_void) = run::<F>;
    unsafe {
        asm!(
            "mov r12, rsp",
            "mov rsp, {top}",
            "call {enter}",
            "mov rsp, r12",
            top = in(reg) top,
            enter = in(reg) enter,
            in("rdi") (&raw mut f).cast::<c_void>(),
            out("r12") _,
            clobber_abi("C"),
        );
    }
    let low = stack.iter().position(|&b| b != PAINT).unwrap_or(SIZE);
    top - (stack.as_ptr() as usize + low)
}

/// The most bytes of each call on one layout, in this order.
pub const CALLS: [&str; 7] = [
    "new",
    "open",
    "gains",
    "place",
    "take back",
    "settle",
    "render",
];

fn of_layout(l: &Layout) -> [usize; 7] {
    let mut r = Record::empty();
    let mut s = Session::empty();
    let mut row = [0.0; 40];
    let outputs = l.numbers.len() / 3;
    let samples = vec![0.5; 8 * 1024];
    let mut mixed = vec![0.0; outputs * 1024];
    let new = touched(|| _ = boundary::new(&l.numbers, &l.lfe, &mut 0, &mut r));
    let open = touched(|| _ = boundary::open(&l.numbers, &l.lfe, 8, &mut 0, &mut s));
    let gains = touched(|| _ = boundary::gains(&r, 0.5, 0.25, &mut row));
    let place = touched(|| _ = boundary::place(&mut s, 3, 0.5, 0.25));
    let render = touched(|| _ = boundary::render(&mut s, 1024, &samples, &mut mixed));
    let settle = touched(|| _ = boundary::settle(&mut s, 3));
    let take_back = touched(|| _ = boundary::take_back(&mut s, 3));
    [new, open, gains, place, take_back, settle, render]
}

/// The most bytes of each call over the oracle's houses.
pub fn depths() -> [usize; 7] {
    let all: Vec<[usize; 7]> = houses().iter().map(of_layout).collect();
    std::array::from_fn(|k| all.iter().map(|d| d[k]).max().unwrap_or(0))
}
