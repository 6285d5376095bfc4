//! How deep into the stack a call goes: it runs on a stack of its own, painted beforehand, and what it painted over is counted.

use std::arch::asm;

/// Far more than the calls may take.
const ROOM: usize = 1 << 20;

const PAINT: u8 = 0xA5;

/// The bytes of stack that `call` takes, the frame of the function that hands it over included.
pub fn depth(call: &mut dyn FnMut()) -> usize {
    let mut room = vec![PAINT; ROOM];
    let mut call = call;
    // SAFETY: the stack pointer is put at the end of `room`, aligned as the calling convention asks, and back afterwards, from
    // a register that the callee keeps. `call` does not unwind: the release profile aborts on a panic.
    unsafe {
        let top = room.as_mut_ptr().add(ROOM) as usize & !15;
        asm!(
            "mov r12, rsp",
            "mov rsp, {top}",
            "call {hand_over}",
            "mov rsp, r12",
            top = in(reg) top,
            hand_over = sym hand_over,
            in("rdi") &mut call,
            out("r12") _,
            clobber_abi("C"),
        );
    }
    ROOM - room.iter().take_while(|&&byte| byte == PAINT).count()
}

extern "C" fn hand_over(call: &mut &mut dyn FnMut()) {
    call();
}
