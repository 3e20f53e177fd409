//! The border to the library: the functions of the crate `probe`, declared once, and safe calls of them on watched buffers.
//!
//! Each buffer lies between guard bytes, and every other one ends right before memory that may not be touched. What a call leaves is copied out; a guard byte
//! or an input that has changed is told with it.

use std::cell::Cell;
use std::fmt::Write;
use std::mem::size_of;
use std::os::raw::{c_int, c_long, c_void};

use crate::model::Header;

// a slice of the library is a pointer and a length
extern "C" {
    fn probe_write(order: usize, row: *const u32, row_len: usize, out: *mut u8, out_len: usize, answer: *mut u64, answer_len: usize);
    fn probe_read(order: usize, s: *const u8, s_len: usize, out: *mut u32, out_len: usize, answer: *mut u64, answer_len: usize);
    fn probe_table_read(s: *const u8, s_len: usize, out: *mut u32, out_len: usize, answer: *mut u64, answer_len: usize);
    fn probe_table_read_bytes(s: *const u8, s_len: usize, out: *mut u8, out_len: usize, answer: *mut u64, answer_len: usize);
    fn probe_dense_write(stoppers: usize, row: *const u32, row_len: usize, out: *mut u8, out_len: usize, answer: *mut u64, answer_len: usize);
    fn probe_dense_read(stoppers: usize, s: *const u8, s_len: usize, out: *mut u32, out_len: usize, answer: *mut u64, answer_len: usize);
    fn probe_header(order: usize, s: *const u8, s_len: usize, answer: *mut u64, answer_len: usize);
    fn probe_append(
        order: usize,
        buf: *mut u8,
        buf_len: usize,
        bits: usize,
        count: usize,
        total: u64,
        n: u32,
        answer: *mut u64,
        answer_len: usize,
    );
    fn probe_replace(order: usize, buf: *mut u8, buf_len: usize, used: usize, place: usize, n: u32, answer: *mut u64, answer_len: usize);
    fn probe_preview(order: usize, buf: *const u8, buf_len: usize, used: usize, place: usize, n: u32, answer: *mut u64, answer_len: usize);
    fn probe_total(order: usize, s: *const u8, s_len: usize, a: usize, b: usize, answer: *mut u64, answer_len: usize);
    fn probe_repeated_total(order: usize, s: *const u8, s_len: usize, repeats: u64, shared: u64, answer: *mut u64, answer_len: usize);
    fn probe_build(order: usize, alphabet: u32, row: *const u32, row_len: usize, out: *mut u8, out_len: usize, answer: *mut u64, answer_len: usize);
    fn probe_extract(order: usize, alphabet: u32, len: usize, index: *const u8, index_len: usize, i: usize, answer: *mut u64, answer_len: usize);
    fn probe_rank(order: usize, alphabet: u32, len: usize, index: *const u8, index_len: usize, n: u32, i: usize, answer: *mut u64, answer_len: usize);
    fn probe_select(order: usize, alphabet: u32, len: usize, index: *const u8, index_len: usize, n: u32, j: usize, answer: *mut u64, answer_len: usize);
    fn probe_listing(input: *const u8, input_len: usize, out: *mut u8, out_len: usize, answer: *mut u64, answer_len: usize);
}

// the C library, for memory that may not be touched
extern "C" {
    fn mmap(address: *mut c_void, length: usize, protection: c_int, flags: c_int, file: c_int, offset: c_long) -> *mut c_void;
    fn mprotect(address: *mut c_void, length: usize, protection: c_int) -> c_int;
    fn signal(number: c_int, handler: extern "C" fn(c_int)) -> usize;
    fn write(file: c_int, bytes: *const c_void, length: usize) -> isize;
    fn _exit(status: c_int) -> !;
}

const PROT_NONE: c_int = 0;
const PROT_READ_WRITE: c_int = 3;
const MAP_PRIVATE_ANONYMOUS: c_int = 0x22;
const SIGBUS: c_int = 7;
const SIGSEGV: c_int = 11;

/// A multiple of every page size in use.
const PAGE: usize = 65_536;
/// What one buffer can have, guard bytes included.
const SIZE: usize = 8 * PAGE;
const GUARD: usize = 64;

// ---- Watched memory ----

/// Memory for one buffer, between two stretches that may not be touched.
struct Memory {
    start: *mut u8,
}

/// A buffer in memory: where it stands, and how many guard bytes are after it.
struct Lent<T> {
    at: *mut T,
    len: usize,
    after: usize,
}

/// Numbers for which any bits are a value.
pub trait Plain: Copy + PartialEq + Default {}
impl Plain for u8 {}
impl Plain for u32 {}
impl Plain for u64 {}

impl Memory {
    fn new() -> Memory {
        unsafe {
            let all = mmap(std::ptr::null_mut(), SIZE + 2 * PAGE, PROT_READ_WRITE, MAP_PRIVATE_ANONYMOUS, -1, 0) as *mut u8;
            assert!(all as isize != -1, "no memory");
            assert_eq!(mprotect(all as *mut c_void, PAGE, PROT_NONE), 0);
            assert_eq!(mprotect(all.add(PAGE + SIZE) as *mut c_void, PAGE, PROT_NONE), 0);
            Memory { start: all.add(PAGE) }
        }
    }

    /// A buffer with this content. On every other call it ends where the memory does; else there are guard bytes after it, of a number that changes.
    fn lend<T: Plain>(&self, content: &[T], calls: u64) -> Lent<T> {
        let after = if calls % 2 == 0 { 0 } else { GUARD + (calls / 2 % 8) as usize * size_of::<T>() };
        let bytes = content.len() * size_of::<T>();
        assert!(GUARD + bytes + after <= SIZE, "the buffer is too long for the test");
        unsafe {
            let at = self.start.add(SIZE - after - bytes);
            for i in 0..GUARD {
                *at.sub(GUARD).add(i) = guard(i);
            }
            for i in 0..after {
                *at.add(bytes + i) = guard(i);
            }
            let at = at as *mut T;
            std::ptr::copy_nonoverlapping(content.as_ptr(), at, content.len());
            Lent { at, len: content.len(), after }
        }
    }
}

fn guard(i: usize) -> u8 {
    (0xA5 ^ (37 * i)) as u8
}

impl<T: Plain> Lent<T> {
    fn content(&self) -> Vec<T> {
        let mut content = vec![T::default(); self.len];
        unsafe { std::ptr::copy_nonoverlapping(self.at, content.as_mut_ptr(), self.len) };
        content
    }

    fn guarded(&self) -> bool {
        unsafe {
            let front = (self.at as *const u8).sub(GUARD);
            let back = self.at.add(self.len) as *const u8;
            (0..GUARD).all(|i| *front.add(i) == guard(i)) && (0..self.after).all(|i| *back.add(i) == guard(i))
        }
    }
}

// ---- Touching other memory ----

thread_local! {
    /// The seed, and the last case that went well, for a message where nothing else can be said any more.
    pub static SEED: Cell<u64> = const { Cell::new(0) };
    pub static CASE: Cell<u64> = const { Cell::new(0) };
}

/// Bytes to write a message to, without asking for memory.
struct Message {
    bytes: [u8; 256],
    len: usize,
}

impl Write for Message {
    fn write_str(&mut self, text: &str) -> std::fmt::Result {
        let part = &text.as_bytes()[..text.len().min(self.bytes.len() - self.len)];
        self.bytes[self.len..self.len + part.len()].copy_from_slice(part);
        self.len += part.len();
        Ok(())
    }
}

extern "C" fn touched(_: c_int) {
    let mut message = Message { bytes: [0; 256], len: 0 };
    let (seed, case) = (SEED.with(Cell::get), CASE.with(Cell::get));
    let _ = writeln!(message, "\ntests/differ: FAILED: memory outside of the lent buffers was touched: seed {seed}, after case {case}");
    unsafe {
        write(1, message.bytes.as_ptr() as *const c_void, message.len);
        _exit(1)
    }
}

// ---- Calls ----

/// How many numbers a call tells: that of its answer, the place, and the results.
pub const TOLD: usize = 6;

pub type Told = [u64; TOLD];

/// What a call tells that has so many results; all others are 0.
pub fn told(number: u64, place: u64, results: &[u64]) -> Told {
    let mut told = [0; TOLD];
    told[0] = number;
    told[1] = place;
    told[2..2 + results.len()].copy_from_slice(results);
    told
}

/// What a call leaves: its answer and its output, and what it may not have done.
pub struct Called<O> {
    before: Vec<u64>,
    pub answer: Vec<u64>,
    pub output: Vec<O>,
    pub fault: Option<&'static str>,
}

impl<O> Called<O> {
    /// The answer's list after a call that tells this: as far as there is room, and after it what stood there.
    pub fn expected(&self, told: Told) -> Vec<u64> {
        let mut answer = self.before.clone();
        for (element, number) in answer.iter_mut().zip(told) {
            *element = number;
        }
        answer
    }
}

pub struct Border {
    input: Memory,
    output: Memory,
    answer: Memory,
    calls: u64,
}

impl Border {
    pub fn new() -> Border {
        unsafe {
            signal(SIGSEGV, touched);
            signal(SIGBUS, touched);
        }
        Border { input: Memory::new(), output: Memory::new(), answer: Memory::new(), calls: 0 }
    }

    /// Calls on watched buffers. The answer has room for what is told, now and then for more or fewer numbers.
    fn call<I: Plain, O: Plain>(
        &mut self,
        input: &[I],
        output: &[O],
        call: impl FnOnce(*const I, usize, *mut O, usize, *mut u64, usize),
    ) -> Called<O> {
        self.calls += 1;
        let room = if self.calls % 16 == 0 { (self.calls / 16 % 8) as usize } else { TOLD };
        let before: Vec<u64> = (0..room).map(|i| 0xDEAD_BEEF + i as u64).collect();
        let lent_input = self.input.lend(input, self.calls);
        let lent_output = self.output.lend(output, self.calls / 2);
        let lent_answer = self.answer.lend(&before, self.calls / 4);
        call(lent_input.at, lent_input.len, lent_output.at, lent_output.len, lent_answer.at, lent_answer.len);
        let fault = if lent_input.content() != input {
            Some("the input was changed")
        } else if !(lent_input.guarded() && lent_output.guarded() && lent_answer.guarded()) {
            Some("bytes beside a lent buffer were changed")
        } else {
            None
        };
        Called { before, answer: lent_answer.content(), output: lent_output.content(), fault }
    }

    pub fn write(&mut self, order: usize, row: &[u32], out: &[u8]) -> Called<u8> {
        self.call(row, out, |r, rs, o, os, a, n| unsafe { probe_write(order, r, rs, o, os, a, n) })
    }

    pub fn read(&mut self, order: usize, s: &[u8], out: &[u32]) -> Called<u32> {
        self.call(s, out, |s, ss, o, os, a, n| unsafe { probe_read(order, s, ss, o, os, a, n) })
    }

    pub fn table_read(&mut self, s: &[u8], out: &[u32]) -> Called<u32> {
        self.call(s, out, |s, ss, o, os, a, n| unsafe { probe_table_read(s, ss, o, os, a, n) })
    }

    pub fn table_read_bytes(&mut self, s: &[u8], out: &[u8]) -> Called<u8> {
        self.call(s, out, |s, ss, o, os, a, n| unsafe { probe_table_read_bytes(s, ss, o, os, a, n) })
    }

    pub fn dense_write(&mut self, stoppers: usize, row: &[u32], out: &[u8]) -> Called<u8> {
        self.call(row, out, |r, rs, o, os, a, n| unsafe { probe_dense_write(stoppers, r, rs, o, os, a, n) })
    }

    pub fn dense_read(&mut self, stoppers: usize, s: &[u8], out: &[u32]) -> Called<u32> {
        self.call(s, out, |s, ss, o, os, a, n| unsafe { probe_dense_read(stoppers, s, ss, o, os, a, n) })
    }

    pub fn header(&mut self, order: usize, s: &[u8]) -> Called<u8> {
        self.call(s, &[], |s, ss, _, _, a, n| unsafe { probe_header(order, s, ss, a, n) })
    }

    pub fn append(&mut self, order: usize, buf: &[u8], header: Header, number: u32) -> Called<u8> {
        let Header { bits, count, total } = header;
        self.call(&[0u8; 0], buf, |_, _, b, bs, a, n| unsafe { probe_append(order, b, bs, bits as usize, count as usize, total, number, a, n) })
    }

    pub fn replace(&mut self, order: usize, buf: &[u8], used: usize, place: usize, number: u32) -> Called<u8> {
        self.call(&[0u8; 0], buf, |_, _, b, bs, a, n| unsafe { probe_replace(order, b, bs, used, place, number, a, n) })
    }

    pub fn preview(&mut self, order: usize, buf: &[u8], used: usize, place: usize, number: u32) -> Called<u8> {
        self.call(buf, &[], |b, bs, _, _, a, n| unsafe { probe_preview(order, b, bs, used, place, number, a, n) })
    }

    pub fn total(&mut self, order: usize, s: &[u8], from: usize, to: usize) -> Called<u8> {
        self.call(s, &[], |s, ss, _, _, a, n| unsafe { probe_total(order, s, ss, from, to, a, n) })
    }

    pub fn repeated_total(&mut self, order: usize, s: &[u8], repeats: u64, shared: u64) -> Called<u8> {
        self.call(s, &[], |s, ss, _, _, a, n| unsafe { probe_repeated_total(order, s, ss, repeats, shared, a, n) })
    }

    pub fn build(&mut self, order: usize, alphabet: u32, row: &[u32], out: &[u8]) -> Called<u8> {
        self.call(row, out, |r, rs, o, os, a, n| unsafe { probe_build(order, alphabet, r, rs, o, os, a, n) })
    }

    pub fn extract(&mut self, order: usize, alphabet: u32, len: usize, index: &[u8], i: usize) -> Called<u8> {
        self.call(index, &[], |s, ss, _, _, a, n| unsafe { probe_extract(order, alphabet, len, s, ss, i, a, n) })
    }

    pub fn rank(&mut self, order: usize, alphabet: u32, len: usize, index: &[u8], number: u32, i: usize) -> Called<u8> {
        self.call(index, &[], |s, ss, _, _, a, n| unsafe { probe_rank(order, alphabet, len, s, ss, number, i, a, n) })
    }

    pub fn select(&mut self, order: usize, alphabet: u32, len: usize, index: &[u8], number: u32, j: usize) -> Called<u8> {
        self.call(index, &[], |s, ss, _, _, a, n| unsafe { probe_select(order, alphabet, len, s, ss, number, j, a, n) })
    }

    pub fn listing(&mut self, input: &[u8], out: &[u8]) -> Called<u8> {
        self.call(input, out, |s, ss, o, os, a, n| unsafe { probe_listing(s, ss, o, os, a, n) })
    }
}
