//! Where lent buffers lie: on the heap, or in pages of their own between
//! two pages that cannot be read or written.

use std::alloc::{alloc_zeroed, dealloc, Layout};
use std::ffi::{c_int, c_void};
use std::ops::{Deref, DerefMut};

extern "C" {
    fn mmap(
        address: *mut c_void,
        length: usize,
        protection: c_int,
        flags: c_int,
        file: c_int,
        offset: i64,
    ) -> *mut c_void;
    fn mprotect(address: *mut c_void, length: usize, protection: c_int) -> c_int;
    fn munmap(address: *mut c_void, length: usize) -> c_int;
}

/// Linux's numbers for what `mmap` is asked.
const NO_ACCESS: c_int = 0;
const READ_AND_WRITE: c_int = 1 | 2;
const PRIVATE_AND_ANONYMOUS: c_int = 2 | 32;

/// A whole number of pages, which have at most 64 KiB.
const FENCE: usize = 65_536;

/// Bytes that begin at a multiple of 8.
pub struct Memory {
    first: *mut u8,
    size: usize,
    fenced: bool,
}

impl Memory {
    /// Exactly so many bytes of the heap, at least one.
    pub fn heap(size: usize) -> Memory {
        let size = size.max(1);
        // SAFETY: the size is not 0.
        let first = unsafe { alloc_zeroed(layout(size)) };
        assert!(!first.is_null(), "there is memory");
        Memory {
            first,
            size,
            fenced: false,
        }
    }

    /// At least so many bytes, between two fences: a read or write before
    /// the first or behind the last stops the program.
    pub fn fenced(size: usize) -> Memory {
        let size = size.max(1).next_multiple_of(FENCE);
        let null = std::ptr::null_mut();
        let whole = size + 2 * FENCE;
        // SAFETY: a new mapping of no file; only its middle is made usable.
        let first = unsafe {
            let first = mmap(null, whole, NO_ACCESS, PRIVATE_AND_ANONYMOUS, -1, 0);
            assert_ne!(first as isize, -1, "pages can be mapped");
            let middle = first.byte_add(FENCE);
            assert_eq!(mprotect(middle, size, READ_AND_WRITE), 0);
            middle.cast()
        };
        Memory {
            first,
            size,
            fenced: true,
        }
    }
}

fn layout(size: usize) -> Layout {
    Layout::from_size_align(size, 8).expect("a size")
}

impl Deref for Memory {
    type Target = [u8];

    fn deref(&self) -> &[u8] {
        // SAFETY: these bytes are ours until `drop`, and zero at first.
        unsafe { std::slice::from_raw_parts(self.first, self.size) }
    }
}

impl DerefMut for Memory {
    fn deref_mut(&mut self) -> &mut [u8] {
        // SAFETY: as in `deref`, and no one else has them.
        unsafe { std::slice::from_raw_parts_mut(self.first, self.size) }
    }
}

impl Drop for Memory {
    fn drop(&mut self) {
        // SAFETY: as `heap` or `fenced` got them.
        unsafe {
            if self.fenced {
                let first = self.first.byte_sub(FENCE).cast();
                assert_eq!(munmap(first, self.size + 2 * FENCE), 0);
            } else {
                dealloc(self.first, layout(self.size));
            }
        }
    }
}

#[cfg(test)]
mod tests {
    use super::*;
    use std::process::Command;

    /// Reads or writes right outside.
    fn trespass(way: &str) {
        let memory = Memory::fenced(10);
        let outside = if way.starts_with("before") {
            memory.first.wrapping_sub(1)
        } else {
            memory.first.wrapping_add(memory.size)
        };
        // SAFETY: none; the program is to be stopped here.
        unsafe {
            if way.ends_with("read") {
                std::hint::black_box(outside.read_volatile());
            } else {
                outside.write_volatile(1);
            }
        }
    }

    const WAYS: [&str; 4] = ["before read", "before write", "behind read", "behind write"];

    #[test]
    fn a_fence_stops_the_program() {
        const WAY: &str = "COMPARE_TEST_TRESPASS";
        if let Ok(way) = std::env::var(WAY) {
            return trespass(&way);
        }
        for way in WAYS {
            let status = Command::new(std::env::current_exe().unwrap())
                .args(["--exact", "memory::tests::a_fence_stops_the_program"])
                .env(WAY, way)
                .output()
                .unwrap()
                .status;
            assert_eq!(status.code(), None, "{way}: stopped by a signal");
        }
    }

    #[test]
    fn inside_the_fences_all_is_usable() {
        for mut memory in [Memory::fenced(100_000), Memory::heap(100_000)] {
            assert!(memory.len() >= 100_000);
            memory.fill(7);
            assert!(memory.iter().all(|byte| *byte == 7));
        }
    }
}
