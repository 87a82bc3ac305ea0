//! Memory that tells of every touch: bytes that stand right before, or right
//! behind, a page that nobody may read or write. On the other side a strip of
//! known bytes shows a write.
use std::ffi::c_void;

mod system {
    use std::ffi::{c_int, c_void};
    extern "C" {
        pub fn mmap(
            at: *mut c_void,
            len: usize,
            prot: c_int,
            flags: c_int,
            fd: c_int,
            from: i64,
        ) -> *mut c_void;
        pub fn mprotect(at: *mut c_void, len: usize, prot: c_int) -> c_int;
        pub fn munmap(at: *mut c_void, len: usize) -> c_int;
    }
    pub const NONE: c_int = 0;
    pub const READ_WRITE: c_int = 3;
    /// private, anonymous, without memory until it is touched
    pub const FLAGS: c_int = 0x02 | 0x20 | 0x4000;
}

const PAGE: usize = 4_096;
const STRIP: usize = 64;
const KNOWN: u8 = 0xA7;

/// Some pages between two forbidden ones.
struct Pages {
    base: *mut u8,
    inner: usize,
}

impl Pages {
    fn new(len: usize) -> Self {
        let inner = len.div_ceil(PAGE) * PAGE;
        let whole = inner + 2 * PAGE;
        unsafe {
            let base = system::mmap(
                std::ptr::null_mut(),
                whole,
                system::NONE,
                system::FLAGS,
                -1,
                0,
            );
            assert!(base as isize != -1, "no memory for {len} bytes");
            let first = base.cast::<u8>().add(PAGE);
            let given = system::mprotect(first.cast::<c_void>(), inner, system::READ_WRITE);
            assert_eq!(given, 0, "no memory for {len} bytes");
            Self { base: first, inner }
        }
    }
}

impl Drop for Pages {
    fn drop(&mut self) {
        unsafe {
            system::munmap(self.base.sub(PAGE).cast(), self.inner + 2 * PAGE);
        }
    }
}

/// Where the bytes stand in their pages: beside which of the forbidden ones.
#[derive(Clone, Copy, PartialEq, Eq)]
pub enum Side {
    /// right behind the first forbidden page
    Front,
    /// right before the second
    Back,
    /// at an odd address
    Odd,
}

const ODD: usize = 3;

pub struct Area {
    pages: Pages,
    /// of the bytes that are lent, in the pages
    from: usize,
    len: usize,
    side: Side,
}

impl Area {
    /// Room for so many bytes.
    pub fn new(most: usize) -> Self {
        let mut area = Self {
            pages: Pages::new(most + ODD + STRIP),
            from: 0,
            len: 0,
            side: Side::Front,
        };
        area.size(0, Side::Front);
        area
    }

    pub fn put(&mut self, bytes: &[u8], side: Side) {
        self.size(bytes.len(), side);
        self.bytes_mut().copy_from_slice(bytes);
    }

    /// Makes room for so many bytes, whatever they are.
    pub fn size(&mut self, len: usize, side: Side) {
        assert!(
            len + ODD + STRIP <= self.pages.inner,
            "the area is too small"
        );
        self.len = len;
        self.side = side;
        self.from = match side {
            Side::Front => 0,
            Side::Back => self.pages.inner - len,
            Side::Odd => ODD,
        };
        self.strip_mut().fill(KNOWN);
    }

    fn part(&self, from: usize, len: usize) -> &[u8] {
        debug_assert!(from + len <= self.pages.inner);
        unsafe { std::slice::from_raw_parts(self.pages.base.add(from), len) }
    }

    fn part_mut(&mut self, from: usize, len: usize) -> &mut [u8] {
        debug_assert!(from + len <= self.pages.inner);
        unsafe { std::slice::from_raw_parts_mut(self.pages.base.add(from), len) }
    }

    fn strip_from(&self) -> usize {
        match self.side {
            Side::Front | Side::Odd => self.from + self.len,
            Side::Back => self.from - STRIP,
        }
    }

    fn strip_mut(&mut self) -> &mut [u8] {
        self.part_mut(self.strip_from(), STRIP)
    }

    pub fn bytes(&self) -> &[u8] {
        self.part(self.from, self.len)
    }

    pub fn bytes_mut(&mut self) -> &mut [u8] {
        self.part_mut(self.from, self.len)
    }

    pub fn pointer(&mut self) -> *mut u8 {
        self.bytes_mut().as_mut_ptr()
    }

    /// Is the strip beside the bytes as it was?
    pub fn strip_is_whole(&self) -> bool {
        self.part(self.strip_from(), STRIP)
            .iter()
            .all(|b| *b == KNOWN)
    }
}
