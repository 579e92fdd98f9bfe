//! The stack that a piece of work takes: it runs on a painted stack, and the paint that is left is counted.

use std::arch::asm;

const SIZE: usize = 1 << 18;
const PAINT: u8 = 0xA5;

/// The bytes of stack that `work` takes, with the copies that its calls pass and return.
pub fn taken_by<F: FnMut()>(mut work: F) -> usize {
    let mut stack = vec![PAINT; SIZE];
    let top = (stack.as_mut_ptr() as usize + SIZE) & !15;
    // SAFETY: the memory below `top` is a stack of SIZE bytes that nothing else uses; the old one stands again afterwards.
    unsafe {
        asm!(
            "mov r12, rsp",
            "mov rsp, {top}",
            "call {entry}",
            "mov rsp, r12",
            top = in(reg) top,
            entry = in(reg) enter::<F> as extern "C" fn(*mut F),
            in("rdi") &mut work,
            out("r12") _,
            clobber_abi("C"),
        );
    }
    SIZE - stack.iter().position(|&byte| byte != PAINT).unwrap_or(SIZE)
}

extern "C" fn enter<F: FnMut()>(work: *mut F) {
    // SAFETY: it is the closure of `taken_by`, which waits for this call.
    unsafe { (*work)() }
}
