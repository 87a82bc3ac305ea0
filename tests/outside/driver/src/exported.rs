//! The exported functions, as include/savetnuok.h declares them.

pub type Open = unsafe extern "C" fn(*const u8, usize, *const u8, usize, *mut u8, usize) -> u64;
pub type Call = unsafe extern "C" fn(
    *const u8,
    usize,
    *const u8,
    usize,
    *mut u8,
    usize,
    *mut u8,
    usize,
    *const u8,
    usize,
) -> u64;

pub type Run = unsafe extern "C" fn(
    *const u8,
    usize,
    *const u8,
    usize,
    *mut u8,
    usize,
    *mut u8,
    usize,
    u32,
) -> u64;

pub type Layout =
    unsafe extern "C" fn(*const u8, usize, *const u8, usize, *mut u8, usize, *mut u8, usize) -> u64;

pub type Why = unsafe extern "C" fn(*const u8, usize, *const u8, usize, u32) -> u64;

/// What is tested: the exported functions, or a stand-in with a fault (faults.rs).
#[derive(Clone, Copy)]
pub struct Library {
    pub open: Open,
    pub call: Call,
    pub run: Run,
    pub layout: Layout,
}

mod savetnuok {
    extern "C" {
        pub fn savetnuok_open(
            source: *const u8,
            source_len: usize,
            tree: *const u8,
            tree_len: usize,
            state: *mut u8,
            state_len: usize,
        ) -> u64;
        pub fn savetnuok_call(
            source: *const u8,
            source_len: usize,
            tree: *const u8,
            tree_len: usize,
            state: *mut u8,
            state_len: usize,
            out: *mut u8,
            out_len: usize,
            record: *const u8,
            record_len: usize,
        ) -> u64;
        pub fn savetnuok_run(
            source: *const u8,
            source_len: usize,
            tree: *const u8,
            tree_len: usize,
            state: *mut u8,
            state_len: usize,
            out: *mut u8,
            out_len: usize,
            node: u32,
        ) -> u64;
        pub fn savetnuok_layout(
            source: *const u8,
            source_len: usize,
            tree: *const u8,
            tree_len: usize,
            state: *mut u8,
            state_len: usize,
            out: *mut u8,
            out_len: usize,
        ) -> u64;
        pub fn savetnuok_why(
            source: *const u8,
            source_len: usize,
            tree: *const u8,
            tree_len: usize,
            node: u32,
        ) -> u64;
    }
}

/// It is asked of source and tree alone, so it stands in no history (why.rs).
pub const WHY: Why = savetnuok::savetnuok_why;

pub const SAVETNUOK: Library = Library {
    open: savetnuok::savetnuok_open,
    call: savetnuok::savetnuok_call,
    run: savetnuok::savetnuok_run,
    layout: savetnuok::savetnuok_layout,
};
