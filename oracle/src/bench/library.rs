//! The linked library (drivers/c/settle.h).

use std::arch::asm;

pub const SIZE: usize = 45_478;
pub const OUT: usize = 10_240;

#[repr(C)]
pub struct Answer {
    pub number: u8,
    pub len: usize,
}

unsafe extern "C" {
    fn settle_table_size() -> usize;
    fn settle_new(table: *mut u8, size: usize, record: *const u8, n: usize) -> u8;
    fn settle_call(table: *mut u8, size: usize, record: *const u8, n: usize, out: *mut u8, m: usize) -> Answer;
}

/// A lent table and a lent buffer. The buffer is not cleared between calls.
#[derive(Clone)]
pub struct Ours {
    table: Vec<u8>,
    out: Vec<u8>,
}

impl Ours {
    /// A table of a record of new, or the number that refuses it.
    pub fn new(record: &[u8]) -> Result<Ours, u8> {
        // SAFETY: no argument.
        assert_eq!(unsafe { settle_table_size() }, SIZE, "the linked library is another version");
        let mut ours = Ours { table: vec![0; SIZE], out: vec![0; OUT] };
        // SAFETY: two slices that do not overlap, lent for the call; the table has its size.
        let number = unsafe { settle_new(ours.table.as_mut_ptr(), SIZE, record.as_ptr(), record.len()) };
        if number == 0 { Ok(ours) } else { Err(number) }
    }

    #[inline]
    pub fn call(&mut self, record: &[u8]) -> Answer {
        let (table, out) = (self.table.as_mut_ptr(), self.out.as_mut_ptr());
        // SAFETY: three slices that do not overlap, lent for the call; settle_new made the table, and only settle_call changed it.
        unsafe { settle_call(table, SIZE, record.as_ptr(), record.len(), out, OUT) }
    }

    /// The same call on another stack, which grows down from `top`.
    pub fn call_on(&mut self, top: *mut u64, record: &[u8]) -> Answer {
        let (table, out) = (self.table.as_mut_ptr(), self.out.as_mut_ptr());
        let (number, len): (usize, usize);
        // SAFETY: as in `call`; `top` is the aligned end of memory that nobody else uses, and the stack pointer is put back.
        unsafe {
            asm!(
                "mov r12, rsp",
                "mov rsp, {top}",
                "call {call}",
                "mov rsp, r12",
                top = in(reg) top,
                call = sym settle_call,
                in("rdi") table,
                in("rsi") SIZE,
                inout("rdx") record.as_ptr() => len,
                in("rcx") record.len(),
                in("r8") out,
                in("r9") OUT,
                out("rax") number,
                out("r12") _,
                clobber_abi("C"),
            );
        }
        Answer { number: number as u8, len }
    }

    pub fn told(&self, len: usize) -> &[u8] {
        &self.out[..len]
    }
}

/// The bytes that the library copies. In the build that counts, its calls of memcpy and memmove lead here (oracle/bench).
#[cfg(settle_counted)]
pub mod counted {
    use std::sync::atomic::{AtomicUsize, Ordering::Relaxed};

    pub static COPIED: AtomicUsize = AtomicUsize::new(0);

    #[unsafe(no_mangle)]
    unsafe extern "C" fn counted_move(to: *mut u8, from: *const u8, n: usize) -> *mut u8 {
        COPIED.fetch_add(n, Relaxed);
        // SAFETY: the caller keeps to memmove's contract.
        unsafe { std::ptr::copy(from, to, n) };
        to
    }

    #[unsafe(no_mangle)]
    unsafe extern "C" fn counted_copy(to: *mut u8, from: *const u8, n: usize) -> *mut u8 {
        // SAFETY: memcpy's contract is more than memmove's.
        unsafe { counted_move(to, from, n) }
    }
}
