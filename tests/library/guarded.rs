// Memory that ends where a page begins that nobody may touch.
use std::ffi::c_void;

const PAGE: usize = 4096;
const READ_WRITE: i32 = 3;
const PRIVATE_ANONYMOUS: i32 = 0x22;

extern "C" {
    fn mmap(address: *mut c_void, length: usize, protection: i32, flags: i32, file: i32, offset: i64) -> *mut c_void;
    fn mprotect(address: *mut c_void, length: usize, protection: i32) -> i32;
    fn munmap(address: *mut c_void, length: usize) -> i32;
}

pub struct Guarded<T> {
    base: *mut c_void,
    mapped: usize,
    start: *mut T,
    pub length: usize,
}

// It is owned memory like a vector's.
unsafe impl<T: Send> Send for Guarded<T> {}

impl<T: Copy> Guarded<T> {
    pub fn new(values: &[T]) -> Guarded<T> {
        let bytes = std::mem::size_of_val(values);
        let pages = bytes.div_ceil(PAGE) + 1;
        let mapped = pages * PAGE;
        unsafe {
            let base = mmap(std::ptr::null_mut(), mapped, READ_WRITE, PRIVATE_ANONYMOUS, -1, 0);
            assert!(base as isize != -1, "no memory");
            let last = base.cast::<u8>().add(mapped - PAGE);
            assert_eq!(mprotect(last.cast(), PAGE, 0), 0);
            let start = last.sub(bytes).cast::<T>();
            std::ptr::copy_nonoverlapping(values.as_ptr(), start, values.len());
            Guarded { base, mapped, start, length: values.len() }
        }
    }

    // No memory at all.
    pub fn null() -> Guarded<T> {
        Guarded { base: std::ptr::null_mut(), mapped: 0, start: std::ptr::null_mut(), length: 0 }
    }

    pub fn pointer(&self) -> *const T {
        self.start
    }

    pub fn pointer_mut(&mut self) -> *mut T {
        self.start
    }

    pub fn values(&self) -> &[T] {
        unsafe { std::slice::from_raw_parts(self.start, self.length) }
    }

    pub fn values_mut(&mut self) -> &mut [T] {
        unsafe { std::slice::from_raw_parts_mut(self.start, self.length) }
    }
}

impl<T> Drop for Guarded<T> {
    fn drop(&mut self) {
        if self.mapped > 0 {
            unsafe { munmap(self.base, self.mapped) };
        }
    }
}
