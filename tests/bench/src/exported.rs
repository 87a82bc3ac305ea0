//! The exported functions: those of crate `bench`, which do the inner work alone,
//! and those of crate `savetnuok`, which a C program calls.

extern "C" {
    fn bench_utf8(s: *const u8, len: usize) -> u64;
    fn bench_count(s: *const u8, len: usize, limit: u32) -> u64;
    fn bench_open(source: *const u8, len: usize, tree: *const u8, tree_len: usize) -> u64;
    fn bench_calls(
        source: *const u8,
        source_len: usize,
        tree: *const u8,
        tree_len: usize,
        out: *mut u8,
        out_len: usize,
        records: *const u8,
        records_len: usize,
    ) -> u64;
    fn bench_runs(
        source: *const u8,
        source_len: usize,
        tree: *const u8,
        tree_len: usize,
        out: *mut u8,
        out_len: usize,
        node: u32,
        times: u32,
    ) -> u64;
    fn bench_layouts(
        source: *const u8,
        source_len: usize,
        tree: *const u8,
        tree_len: usize,
        out: *mut u8,
        out_len: usize,
        times: u32,
    ) -> u64;
    fn savetnuok_open(
        source: *const u8,
        source_len: usize,
        tree: *const u8,
        tree_len: usize,
        state: *mut u8,
        state_len: usize,
    ) -> u64;
    fn savetnuok_call(
        source: *const u8,
        source_len: usize,
        tree: *const u8,
        tree_len: usize,
        state: *mut u8,
        state_len: usize,
        out: *mut u8,
        out_len: usize,
        record: *const u8,
        record_len: usize,
    ) -> u64;
    fn savetnuok_run(
        source: *const u8,
        source_len: usize,
        tree: *const u8,
        tree_len: usize,
        state: *mut u8,
        state_len: usize,
        out: *mut u8,
        out_len: usize,
        node: u32,
    ) -> u64;
    fn savetnuok_layout(
        source: *const u8,
        source_len: usize,
        tree: *const u8,
        tree_len: usize,
        state: *mut u8,
        state_len: usize,
        out: *mut u8,
        out_len: usize,
    ) -> u64;
}

/// A state in bytes; all zero is a fresh engine.
pub const STATE: usize = 4128;

/// All ones, or the place of the first ill-formed sequence.
pub fn utf8(s: &[u8]) -> u64 {
    unsafe { bench_utf8(s.as_ptr(), s.len()) }
}

pub fn count(s: &[u8], limit: u32) -> u64 {
    unsafe { bench_count(s.as_ptr(), s.len(), limit) }
}

/// Refusal number * 2^32 + place, or 0.
pub fn open(source: &[u8], tree: &[u8]) -> u64 {
    unsafe { bench_open(source.as_ptr(), source.len(), tree.as_ptr(), tree.len()) }
}

/// All records from a fresh engine on: the output's length, or the refusal.
pub fn calls(source: &[u8], tree: &[u8], out: &mut [u8], records: &[u8]) -> u64 {
    unsafe {
        bench_calls(
            source.as_ptr(),
            source.len(),
            tree.as_ptr(),
            tree.len(),
            out.as_mut_ptr(),
            out.len(),
            records.as_ptr(),
            records.len(),
        )
    }
}

pub fn public_open(source: &[u8], tree: &[u8], state: &mut [u8; STATE]) -> u64 {
    unsafe {
        savetnuok_open(
            source.as_ptr(),
            source.len(),
            tree.as_ptr(),
            tree.len(),
            state.as_mut_ptr(),
            STATE,
        )
    }
}

pub fn public_call(
    source: &[u8],
    tree: &[u8],
    state: &mut [u8; STATE],
    out: &mut [u8],
    record: &[u8],
) -> u64 {
    unsafe {
        savetnuok_call(
            source.as_ptr(),
            source.len(),
            tree.as_ptr(),
            tree.len(),
            state.as_mut_ptr(),
            STATE,
            out.as_mut_ptr(),
            out.len(),
            record.as_ptr(),
            record.len(),
        )
    }
}

pub fn public_run(
    source: &[u8],
    tree: &[u8],
    state: &mut [u8; STATE],
    out: &mut [u8],
    node: u32,
) -> u64 {
    unsafe {
        savetnuok_run(
            source.as_ptr(),
            source.len(),
            tree.as_ptr(),
            tree.len(),
            state.as_mut_ptr(),
            STATE,
            out.as_mut_ptr(),
            out.len(),
            node,
        )
    }
}

/// So many runs on a node, each on a fresh engine, over a tree that is decoded
/// once.
pub fn runs(source: &[u8], tree: &[u8], out: &mut [u8], node: u32, times: u32) -> u64 {
    unsafe {
        bench_runs(
            source.as_ptr(),
            source.len(),
            tree.as_ptr(),
            tree.len(),
            out.as_mut_ptr(),
            out.len(),
            node,
            times,
        )
    }
}

pub fn public_layout(source: &[u8], tree: &[u8], state: &mut [u8; STATE], out: &mut [u8]) -> u64 {
    unsafe {
        savetnuok_layout(
            source.as_ptr(),
            source.len(),
            tree.as_ptr(),
            tree.len(),
            state.as_mut_ptr(),
            STATE,
            out.as_mut_ptr(),
            out.len(),
        )
    }
}

/// So many whole layouts, each on a fresh engine, over a tree that is decoded once.
pub fn layouts(source: &[u8], tree: &[u8], out: &mut [u8], times: u32) -> u64 {
    unsafe {
        bench_layouts(
            source.as_ptr(),
            source.len(),
            tree.as_ptr(),
            tree.len(),
            out.as_mut_ptr(),
            out.len(),
            times,
        )
    }
}
