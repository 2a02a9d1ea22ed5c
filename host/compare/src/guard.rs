//! Memory that lies directly against unreadable pages, so that one access outside a lent slice ends the run.
//! The numbers are those of Linux.

use std::cell::Cell;
use std::ffi::{c_int, c_long, c_void};
use std::fmt::Display;

const PROT_NONE: c_int = 0;
const PROT_READ_WRITE: c_int = 1 | 2;
/// And not reserved: what is not touched is no memory.
const MAP_PRIVATE_ANONYMOUS: c_int = 2 | 32 | 0x4000;
const SIGBUS: c_int = 7;
const SIGSEGV: c_int = 11;

unsafe extern "C" {
    fn getpagesize() -> c_int;
    fn mmap(at: *mut c_void, len: usize, prot: c_int, flags: c_int, fd: c_int, offset: c_long) -> *mut c_void;
    fn mprotect(at: *mut c_void, len: usize, prot: c_int) -> c_int;
    fn munmap(at: *mut c_void, len: usize) -> c_int;
    fn signal(number: c_int, handler: extern "C" fn(c_int)) -> *mut c_void;
    fn _exit(status: c_int) -> !;
}

/// Which end of a lent slice touches an unreadable page.
#[derive(Clone, Copy, Debug, PartialEq)]
pub enum Side {
    /// The page begins right after the last byte.
    End,
    /// The page ends right before the first byte.
    Start,
}

pub const SIDES: [Side; 2] = [Side::End, Side::Start];

impl Display for Side {
    fn fmt(&self, f: &mut std::fmt::Formatter<'_>) -> std::fmt::Result {
        f.write_str(match self {
            Side::End => "an unreadable page right after the last byte",
            Side::Start => "an unreadable page right before the first byte",
        })
    }
}

/// What can be lent: numbers whose bytes may be anything.
pub trait Number: Copy {}
impl Number for u8 {}
impl Number for i16 {}

/// Readable pages between two unreadable ones.
pub struct Guarded {
    map: *mut u8,
    page: usize,
    readable: usize,
}

impl Guarded {
    /// Room for slices of `capacity` bytes. It grows for larger ones.
    pub fn new(capacity: usize) -> Guarded {
        // SAFETY: a fresh mapping, checked; its middle pages are made readable and writable, checked.
        unsafe {
            let page = getpagesize() as usize;
            let readable = capacity.max(1).next_multiple_of(page);
            let whole = readable + 2 * page;
            let map = mmap(std::ptr::null_mut(), whole, PROT_NONE, MAP_PRIVATE_ANONYMOUS, -1, 0);
            assert!(map as isize != -1, "mmap of {whole} bytes");
            let opened = mprotect(map.byte_add(page), readable, PROT_READ_WRITE);
            assert!(opened == 0, "mprotect of {readable} bytes");
            Guarded { map: map.cast(), page, readable }
        }
    }

    /// All that is readable, zeros at first.
    pub fn all<T: Number>(&mut self) -> &mut [T] {
        // SAFETY: the readable pages, which this value owns.
        unsafe { std::slice::from_raw_parts_mut(self.map.add(self.page).cast(), self.readable / size_of::<T>()) }
    }

    /// A copy of `items` whose `side` touches an unreadable page.
    pub fn lend<T: Number>(&mut self, side: Side, items: &[T]) -> &mut [T] {
        let len = size_of_val(items);
        if len > self.readable {
            *self = Guarded::new(len);
        }
        let offset = match side {
            Side::End => self.page + self.readable - len,
            Side::Start => self.page,
        };
        // SAFETY: the range lies within the readable pages, which this value owns; both of its ends are aligned, as
        // those of the pages are.
        let lent = unsafe { std::slice::from_raw_parts_mut(self.map.add(offset).cast(), items.len()) };
        lent.copy_from_slice(items);
        lent
    }
}

impl Drop for Guarded {
    fn drop(&mut self) {
        // SAFETY: the mapping that `new` made, which nobody borrows any more.
        unsafe { munmap(self.map.cast(), self.readable + 2 * self.page) };
    }
}

thread_local! {
    /// The call under way in this thread.
    static CALL: Cell<Option<*const dyn Display>> = const { Cell::new(None) };
}

/// Runs `call`. If it touches an unreadable page, the run ends and prints `what`.
pub fn calling<R>(what: &dyn Display, call: impl FnOnce() -> R) -> R {
    // SAFETY: only the lifetime changes; the pointer is taken back before `what` ends.
    let what: *const (dyn Display + 'static) = unsafe { std::mem::transmute(what) };
    CALL.set(Some(what));
    let result = call();
    CALL.set(None);
    result
}

/// From now on a touched unreadable page prints the call under way.
pub fn report_faults() {
    // SAFETY: the handler prints and ends the process.
    unsafe {
        signal(SIGSEGV, on_fault);
        signal(SIGBUS, on_fault);
    }
}

extern "C" fn on_fault(_signal: c_int) {
    match CALL.get() {
        // SAFETY: `calling` keeps the pointer only while its target lives.
        Some(what) => println!("FAILED memory outside what was lent was touched\n{}", unsafe { &*what }),
        None => println!("FAILED memory fault outside the calls compared"),
    }
    // SAFETY: ends the process.
    unsafe { _exit(1) }
}

#[cfg(test)]
mod tests {
    use super::*;
    use std::os::fd::AsRawFd;

    unsafe extern "C" {
        fn write(fd: c_int, from: *const u8, len: usize) -> isize;
    }

    /// Writes one byte into a pipe, which fails where the byte is unreadable.
    fn readable(at: *const u8) -> bool {
        let (_reader, writer) = std::io::pipe().expect("a pipe");
        // SAFETY: the kernel checks the address.
        unsafe { write(writer.as_raw_fd(), at, 1) == 1 }
    }

    #[test]
    fn a_lent_slice_touches_an_unreadable_page() {
        let mut memory = Guarded::new(5000);
        for len in [0, 1, 20, 4096, 5000] {
            let bytes = vec![7; len];
            for side in SIDES {
                let lent = memory.lend(side, &bytes);
                assert!(lent == bytes);
                let ends = lent.as_ptr_range();
                let (outside, inside) = match side {
                    Side::End => (ends.end, ends.end.wrapping_sub(1)),
                    Side::Start => (ends.start.wrapping_sub(1), ends.start),
                };
                assert!(readable(inside) && !readable(outside), "{side}, {len} bytes");
            }
        }
    }
}
