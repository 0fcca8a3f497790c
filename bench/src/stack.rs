//! How deep a call goes: it is made on a stack of our own, painted before, and
//! the lowest byte that lost its paint is looked for. x86-64 only, as the
//! proved library is.

use crate::programs::Program;
use std::arch::asm;

const SIZE: usize = 1 << 20;
const PAINT: u8 = 0xa5;

struct Call<'a> {
    program: Program,
    list: &'a [u8],
    out: &'a mut [u8],
}

extern "C" fn make(call: &mut Call) {
    (call.program)(call.list, call.out);
}

/// The bytes of stack that a run of the list takes, the call's own among them.
pub fn depth(program: Program, list: &[u8], out: &mut [u8]) -> usize {
    let mut call = Call { program, list, out };
    // Once beforehand: what a library sets up once is not the run's.
    make(&mut call);
    let mut stack = vec![PAINT; SIZE];
    let top = stack.as_mut_ptr_range().end;
    let top = top.wrapping_sub(top as usize % 16);
    // SAFETY: the stack is `stack`, aligned, and longer than any run needs (a
    // run that reached its end is told below); r12 outlives the call, by the C
    // convention, and brings the old one back.
    unsafe {
        asm!(
            "xchg rsp, r12",
            "call {make}",
            "mov rsp, r12",
            make = in(reg) make as extern "C" fn(&mut Call),
            in("rdi") &mut call,
            inout("r12") top => _,
            clobber_abi("C"),
        );
    }
    let untouched = stack.iter().position(|&byte| byte != PAINT).unwrap_or(SIZE);
    assert!(untouched > 4096, "the run needs more stack than was painted");
    SIZE - untouched
}
