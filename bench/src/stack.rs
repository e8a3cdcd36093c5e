//! The stack that a call uses: it runs on a painted stack of its own, and the lowest word that changed is looked for.

use std::arch::asm;

const STACK_WORDS: usize = 1 << 20;
const PAINT: u64 = 0xA5A5_5A5A_C3C3_3C3C;

/// What runs on the painted stack.
struct Call<'a> {
    run: &'a mut dyn FnMut(),
}

extern "C" fn enter(call: *mut Call<'_>) {
    // The pointer is to a call that outlives this one.
    unsafe { ((*call).run)() }
}

/// The bytes of stack that `run` touches.
pub fn stack_of(run: &mut dyn FnMut()) -> usize {
    let mut stack = vec![PAINT; STACK_WORDS];
    let mut call = Call { run };
    // A call needs a stack that is a multiple of 16 bytes.
    let top = (stack.as_mut_ptr() as usize + 8 * STACK_WORDS) & !15;
    // The stack pointer is put back before anything else runs; r12 keeps it, and callees keep r12.
    unsafe {
        asm!(
            "mov r12, rsp",
            "mov rsp, {top}",
            "call {enter}",
            "mov rsp, r12",
            top = in(reg) top,
            enter = sym enter,
            in("rdi") &mut call,
            out("r12") _,
            clobber_abi("C"),
        );
    }
    let untouched = stack.iter().take_while(|word| **word == PAINT).count();
    assert!(untouched > 0, "the stack is too small");
    top - (stack.as_ptr() as usize + 8 * untouched)
}
