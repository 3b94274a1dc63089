// Memory that ends where a page may not be touched: a step past it stops the program.

extern "C" {
    fn mmap(at: *mut u8, len: usize, protection: i32, flags: i32, file: i32, offset: i64) -> *mut u8;
    fn mprotect(at: *mut u8, len: usize, protection: i32) -> i32;
}

const READ_AND_WRITE: i32 = 3;
const PRIVATE_AND_OF_NO_FILE: i32 = 0x22;
const PAGE: usize = 65536;

pub struct Guarded {
    end: *mut u8,
    size: usize,
}

impl Guarded {
    // Room for `size` bytes between two forbidden pages.
    pub fn new(size: usize) -> Guarded {
        let size = size.div_ceil(PAGE) * PAGE;
        unsafe {
            let at = mmap(std::ptr::null_mut(), size + 2 * PAGE, 0, PRIVATE_AND_OF_NO_FILE, -1, 0);
            assert!(at as isize != -1, "no memory");
            assert_eq!(mprotect(at.add(PAGE), size, READ_AND_WRITE), 0, "no memory");
            Guarded { end: at.add(PAGE + size), size }
        }
    }

    // The last `len` bytes.
    pub fn bytes(&mut self, len: usize) -> &mut [u8] {
        assert!(len <= self.size);
        unsafe { std::slice::from_raw_parts_mut(self.end.sub(len), len) }
    }

    // The last `len` words.
    pub fn words(&mut self, len: usize) -> &mut [u32] {
        assert!(4 * len <= self.size);
        unsafe { std::slice::from_raw_parts_mut(self.end.cast::<u32>().sub(len), len) }
    }
}
