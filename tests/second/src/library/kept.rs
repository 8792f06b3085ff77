//! A call of a C function that also sees whether it kept the registers that such a function must keep (System V, x86-64).
use std::arch::global_asm;

// extern "C" fn second_call(function, arguments: *const [u64; 8], changed: *mut u64) -> u64
//
// Six arguments go in registers and two on the stack; a function with fewer takes no notice of the others. Before the call each of
// rbx, rbp and r12 to r15 holds a number of its own; *changed gets the bits in which one of them differs afterwards.
global_asm!(
    ".globl second_call",
    "second_call:",
    "push rbx",
    "push rbp",
    "push r12",
    "push r13",
    "push r14",
    "push r15",
    "push rdx",
    "mov rax, rdi",
    "mov r10, rsi",
    "push [r10 + 56]",
    "push [r10 + 48]",
    "mov rdi, [r10]",
    "mov rsi, [r10 + 8]",
    "mov rdx, [r10 + 16]",
    "mov rcx, [r10 + 24]",
    "mov r8, [r10 + 32]",
    "mov r9, [r10 + 40]",
    "mov rbx, 0x1b1b1b1b",
    "mov rbp, 0x2b2b2b2b",
    "mov r12, 0x3c3c3c3c",
    "mov r13, 0x4d4d4d4d",
    "mov r14, 0x5e5e5e5e",
    "mov r15, 0x6f6f6f6f",
    "call rax",
    "add rsp, 16",
    "pop rdx",
    "xor rbx, 0x1b1b1b1b",
    "xor rbp, 0x2b2b2b2b",
    "xor r12, 0x3c3c3c3c",
    "xor r13, 0x4d4d4d4d",
    "xor r14, 0x5e5e5e5e",
    "xor r15, 0x6f6f6f6f",
    "or rbx, rbp",
    "or rbx, r12",
    "or rbx, r13",
    "or rbx, r14",
    "or rbx, r15",
    "mov [rdx], rbx",
    "pop r15",
    "pop r14",
    "pop r13",
    "pop r12",
    "pop rbp",
    "pop rbx",
    "ret",
);

extern "C" {
    fn second_call(function: *const (), arguments: *const [u64; 8], changed: *mut u64) -> u64;
}

/// What the function answers, and whether it kept those registers.
///
/// # Safety
/// The function takes at most eight numbers or pointers, and these are right for it.
pub unsafe fn call(function: *const (), arguments: &[u64]) -> (u64, bool) {
    let mut all = [0x7777_7777_7777_7777; 8];
    all[..arguments.len()].copy_from_slice(arguments);
    let mut changed = 0;
    let answer = unsafe { second_call(function, &all, &mut changed) };
    (answer, changed == 0)
}
