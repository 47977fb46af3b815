//! Lent lists between two pages that may not be touched. The same memory is mapped twice: once for reading and writing, and once
//! for reading only. A call that may only read a list gets the second view, so that a stray write stops the run, and so does a read
//! or write past the list's end (or before its start, when it is laid there).

use std::ffi::{c_char, c_int, c_long, c_void};
use std::marker::PhantomData;

/// The name of the page's size, for `sysconf`.
const PAGE_SIZE: c_int = 30;
const PROT_NONE: c_int = 0;
const PROT_READ: c_int = 1;
const PROT_WRITE: c_int = 2;
const MAP_SHARED: c_int = 1;
const MAP_PRIVATE: c_int = 2;
const MAP_FIXED: c_int = 16;
const MAP_ANONYMOUS: c_int = 32;

extern "C" {
    fn mmap(at: *mut c_void, bytes: usize, protection: c_int, flags: c_int, file: c_int, from: c_long) -> *mut c_void;
    fn memfd_create(name: *const c_char, flags: u32) -> c_int;
    fn ftruncate(file: c_int, bytes: c_long) -> c_int;
    fn close(file: c_int) -> c_int;
    fn sysconf(name: c_int) -> c_long;
}

/// Bytes of a page.
fn page() -> usize {
    // SAFETY: a number only.
    unsafe { sysconf(PAGE_SIZE) as usize }
}

/// Which end of a list touches a forbidden page.
#[derive(Clone, Copy, PartialEq, Eq, Debug)]
pub enum Edge {
    Last,
    First,
}

/// A list and the memory it is lent from.
pub struct Lent<T> {
    bytes: usize,
    edge: Edge,
    writing: *mut u8,
    reading: *const u8,
    from: usize,
    length: usize,
    null: bool,
    element: PhantomData<T>,
}

/// Reserves the bytes with a forbidden page on either side, and maps the file between them.
fn view(file: c_int, bytes: usize, protection: c_int) -> *mut u8 {
    let nowhere = std::ptr::null_mut();
    // SAFETY: a new reservation; the fixed mapping lies inside it.
    unsafe {
        let room = mmap(nowhere, bytes + 2 * page(), PROT_NONE, MAP_PRIVATE | MAP_ANONYMOUS, -1, 0) as *mut u8;
        assert!(room as isize != -1, "address space for a list");
        let inside = room.add(page()) as *mut c_void;
        assert!(mmap(inside, bytes, protection, MAP_SHARED | MAP_FIXED, file, 0) == inside, "memory for a list");
        inside as *mut u8
    }
}

impl<T: Copy + PartialEq> Lent<T> {
    /// Room for lists of at most `most` elements, all at one edge of it.
    pub fn new(most: usize, edge: Edge) -> Lent<T> {
        let bytes = (most * size_of::<T>()).div_ceil(page()).max(1) * page();
        // SAFETY: the name ends with 0; the mappings keep the file's memory.
        unsafe {
            let file = memfd_create(c"lent".as_ptr(), 0);
            assert!(file >= 0 && ftruncate(file, bytes as c_long) == 0, "a file in memory");
            let writing = view(file, bytes, PROT_READ | PROT_WRITE);
            let reading = view(file, bytes, PROT_READ);
            close(file);
            Lent { bytes, edge, writing, reading, from: 0, length: 0, null: false, element: PhantomData }
        }
    }

    /// A list of that length; one of no elements may be a null pointer.
    fn lay(&mut self, length: usize, null: bool) -> &mut [T] {
        let bytes = length * size_of::<T>();
        assert!(bytes <= self.bytes, "room for {length} elements");
        self.length = length;
        self.null = null && length == 0;
        self.from = if self.edge == Edge::Last { self.bytes - bytes } else { 0 };
        // SAFETY: inside the writable view and borrowed as self is; aligned, since a page's ends are.
        unsafe { std::slice::from_raw_parts_mut(self.writing.add(self.from) as *mut T, length) }
    }

    /// Lends a copy of the list.
    pub fn copy(&mut self, list: &[T], null: bool) {
        self.lay(list.len(), null).copy_from_slice(list);
    }

    pub fn held(&self) -> &[T] {
        // SAFETY: inside the writable view; a call that writes there has returned.
        unsafe { std::slice::from_raw_parts(self.writing.add(self.from) as *const T, self.length) }
    }

    /// For a call that may only read.
    pub fn read(&self) -> *const T {
        if self.null {
            return std::ptr::null();
        }
        // SAFETY: at most one past the view's end.
        unsafe { self.reading.add(self.from) as *const T }
    }

    /// For a call that may write.
    pub fn write(&mut self) -> *mut T {
        if self.null {
            return std::ptr::null_mut();
        }
        // SAFETY: at most one past the view's end.
        unsafe { self.writing.add(self.from) as *mut T }
    }

    pub fn len(&self) -> usize {
        self.length
    }
}

/// What a stray access does: ends the process. Only for a child process that is expected to end so.
pub fn touch(where_to: &str) {
    let edge = if where_to == "before" { Edge::First } else { Edge::Last };
    let mut list: Lent<u32> = Lent::new(5, edge);
    list.copy(&[1, 2, 3, 4, 5], false);
    // SAFETY: none; these are the accesses that must stop the process.
    unsafe {
        match where_to {
            "past" => std::ptr::read_volatile(list.read().add(5)),
            "before" => std::ptr::read_volatile(list.read().sub(1)),
            "write-past" => {
                std::ptr::write_volatile(list.write().add(5), 0);
                0
            }
            "write-read-only" => {
                std::ptr::write_volatile(list.read() as *mut u32, 0);
                0
            }
            // the accesses that are allowed
            _ => std::ptr::read_volatile(list.read().add(4)),
        }
    };
}
