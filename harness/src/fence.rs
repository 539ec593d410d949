//! Memory with a fence: bytes that end where a page begins that nobody may touch. A library that reads one byte too far is stopped at once.

use std::ffi::{c_int, c_void};

const PAGE: usize = 4_096;
const NO_ACCESS: c_int = 0;
const READ_WRITE: c_int = 3;
const PRIVATE_ANONYMOUS: c_int = 0x22;

extern "C" {
    fn mmap(address: *mut c_void, length: usize, access: c_int, kind: c_int, file: c_int, offset: i64) -> *mut c_void;
    fn mprotect(address: *mut c_void, length: usize, access: c_int) -> c_int;
    fn munmap(address: *mut c_void, length: usize) -> c_int;
}

/// Room for so many bytes before the fence.
pub struct Fenced {
    memory: *mut u8,
    room: usize,
}

impl Fenced {
    /// Room for at least so many bytes.
    pub fn new(bytes: usize) -> Fenced {
        let room = bytes.div_ceil(PAGE) * PAGE;
        // Safety: the mapping is new, and its last page is the fence.
        unsafe {
            let memory = mmap(std::ptr::null_mut(), room + PAGE, READ_WRITE, PRIVATE_ANONYMOUS, -1, 0).cast::<u8>();
            assert!(memory as isize != -1, "the system has no memory left");
            assert_eq!(mprotect(memory.add(room).cast(), PAGE, NO_ACCESS), 0, "the fence stands");
            Fenced { memory, room }
        }
    }

    /// Room for so many bytes, in another place if there is too little here.
    pub fn make_room(&mut self, bytes: usize) {
        if self.room < bytes {
            *self = Fenced::new(bytes);
        }
    }

    /// A copy of the bytes that ends at the fence.
    pub fn hold(&mut self, bytes: &[u8]) -> &[u8] {
        assert!(bytes.len() <= self.room, "the bytes have room");
        // Safety: the last bytes before the fence are within the mapping, and `self` is borrowed as long as they are.
        let held = unsafe { std::slice::from_raw_parts_mut(self.memory.add(self.room - bytes.len()), bytes.len()) };
        held.copy_from_slice(bytes);
        held
    }

    /// A copy of the numbers that ends at the fence.
    pub fn hold_numbers(&mut self, numbers: &[u32]) -> &[u32] {
        let bytes: Vec<u8> = numbers.iter().flat_map(|number| number.to_ne_bytes()).collect();
        let held = self.hold(&bytes);
        // Safety: the bytes are those of as many numbers, and what ends at a page's end and has their length is aligned for them.
        unsafe { std::slice::from_raw_parts(held.as_ptr().cast(), numbers.len()) }
    }
}

impl Drop for Fenced {
    fn drop(&mut self) {
        // Safety: `new` made the mapping, and no borrow of it is left.
        unsafe { munmap(self.memory.cast(), self.room + PAGE) };
    }
}
