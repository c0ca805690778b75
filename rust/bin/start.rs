//! What a program for x86-64-v3 does before all else: it asks the processor for what this level
//! has, and ends with a line and status 1 where something is missing. rustc's own instructions of
//! the level may be anywhere from `main` on. So this is assembly of what every x86-64 has, and the
//! C library calls it before `main`. It is a part of the programs alone: the library asks nothing in
//! the programs of others.
#![allow(unsafe_code)]
// A build for x86-64-v3 has all that this level adds to the second.
#![cfg(all(
    target_arch = "x86_64",
    target_os = "linux",
    target_pointer_width = "64",
    target_feature = "avx2",
    target_feature = "bmi1",
    target_feature = "bmi2",
    target_feature = "f16c",
    target_feature = "fma",
    target_feature = "lzcnt",
    target_feature = "movbe"
))]

use core::arch::global_asm;

/// The bits that these numbers name.
const fn bits<const N: usize>(numbers: [u32; N]) -> u32 {
    let (mut all, mut i) = (0, 0);
    while i < N {
        all |= 1 << numbers[i];
        i += 1;
    }
    all
}

/// In `ecx` of leaf 1: SSE3, SSSE3, FMA, CMPXCHG16B, SSE4.1, SSE4.2, MOVBE, POPCNT, XSAVE, that the
/// system uses this, AVX, and F16C.
pub(crate) const FIRST: u32 = bits([0, 9, 12, 13, 19, 20, 22, 23, 26, 27, 28, 29]);

/// In `ebx` of leaf 7: BMI1, AVX2, and BMI2.
pub(crate) const SEVENTH: u32 = bits([3, 5, 8]);

/// In `ecx` of leaf 8000_0001: LAHF, and LZCNT.
pub(crate) const EXTENDED: u32 = bits([0, 5]);

/// In the register that says what the system keeps of each process: those of SSE and of AVX.
pub(crate) const SAVED: u32 = bits([1, 2]);

// SAFETY: the C library calls this as a function without a result. Such a function has to keep
// `rbx`, which `cpuid` changes. `xgetbv` comes where `cpuid` has said that the system uses it. The
// calls of the system, `write` and `exit_group`, read the line alone.
global_asm!(
    ".pushsection .init_array, \"aw\", @init_array",
    ".p2align 3",
    ".quad seldomplough_asks",
    ".popsection",
    ".pushsection .rodata.seldomplough_asks, \"a\", @progbits",
    "seldomplough_lacks:",
    ".ascii \"seldomplough: this program is built for x86-64-v3, which the processor lacks\\n\"",
    ".set seldomplough_length, . - seldomplough_lacks",
    ".popsection",
    ".pushsection .text.seldomplough_asks, \"ax\", @progbits",
    "seldomplough_asks:",
    "push rbx",
    "xor eax, eax",
    "cpuid",
    "cmp eax, 7",
    "jb 3f",
    "mov eax, 1",
    "cpuid",
    "and ecx, {first}",
    "cmp ecx, {first}",
    "jne 3f",
    "xor ecx, ecx",
    "xgetbv",
    "and eax, {saved}",
    "cmp eax, {saved}",
    "jne 3f",
    "mov eax, 7",
    "xor ecx, ecx",
    "cpuid",
    "and ebx, {seventh}",
    "cmp ebx, {seventh}",
    "jne 3f",
    "mov eax, 0x80000001",
    "cpuid",
    "and ecx, {extended}",
    "cmp ecx, {extended}",
    "jne 3f",
    "pop rbx",
    "ret",
    "3:",
    "mov eax, 1",
    "mov edi, 2",
    "lea rsi, [rip + seldomplough_lacks]",
    "mov edx, OFFSET seldomplough_length",
    "syscall",
    "mov eax, 231",
    "mov edi, 1",
    "syscall",
    "ud2",
    ".popsection",
    first = const FIRST,
    saved = const SAVED,
    seventh = const SEVENTH,
    extended = const EXTENDED,
);
