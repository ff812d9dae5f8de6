//! Requests to callgrind, a tool of valgrind. Outside valgrind, and on other processors than x86-64 and Arm's aarch64, they do nothing.
use std::ffi::CString;

const TOOL: usize = (b'C' as usize) << 24 | (b'T' as usize) << 16;

#[cfg(target_arch = "x86_64")]
fn request(code: usize, word: usize) {
    let words = [TOOL + code, word, 0, 0, 0, 0];
    // SAFETY: the rotations together turn rdi once around and the exchange changes nothing; callgrind takes the row for a request.
    unsafe {
        std::arch::asm!("rol rdi, 3", "rol rdi, 13", "rol rdi, 61", "rol rdi, 51", "xchg rbx, rbx",
            in("rax") words.as_ptr(), inout("rdx") 0usize => _);
    }
}

#[cfg(target_arch = "aarch64")]
fn request(code: usize, word: usize) {
    let words = [TOOL + code, word, 0, 0, 0, 0];
    // SAFETY: the rotations together turn x12 twice around and the last instruction changes nothing; callgrind takes the row for a request.
    unsafe {
        std::arch::asm!("ror x12, x12, #3", "ror x12, x12, #13", "ror x12, x12, #51", "ror x12, x12, #61", "orr x10, x10, x10",
            in("x4") words.as_ptr(), inout("x3") 0usize => _);
    }
}

#[cfg(not(any(target_arch = "x86_64", target_arch = "aarch64")))]
fn request(_: usize, _: usize) {
    let _ = TOOL;
}

/// Counts from 0 on.
pub fn zero() {
    request(1, 0);
}

/// Writes what was counted, under a name.
pub fn dump(name: &CString) {
    request(3, name.as_ptr() as usize);
}

/// A name that is made before the count begins.
pub fn name(words: &str) -> CString {
    CString::new(words).unwrap()
}
