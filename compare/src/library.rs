//! The proved library's C functions (include/tinzoher.h), each as a function over slices.

mod c {
    use super::LastBlock;

    unsafe extern "C" {
        pub fn tinzoher_last_block_new(block: *mut LastBlock, number: u16);
        pub fn tinzoher_last_block_step(block: *mut LastBlock, word: u32);
        pub fn tinzoher_last_block_answer(block: *const LastBlock, values: *mut u64, two: usize) -> u32;
        pub fn tinzoher_is_pure_infallible(words: *const u32, n: usize, values: *mut u64, two: usize) -> u32;
        pub fn tinzoher_is_pure_infallible_to_bool(words: *const u32, n: usize, values: *mut u64, two: usize) -> u32;
        pub fn tinzoher_is_definitely_bool(words: *const u32, n: usize, values: *mut u64, two: usize) -> u32;
        pub fn tinzoher_is_iterable_empty(words: *const u32, n: usize, values: *mut u64, two: usize) -> u32;
        pub fn tinzoher_is_safe_to_inline_expr(
            words: *const u32,
            n: usize,
            param_count: u32,
            values: *mut u64,
            two: usize,
        ) -> u32;
        pub fn tinzoher_inline_def_body(
            words: *const u32,
            n: usize,
            params: u32,
            first_positional: bool,
            star: bool,
            param_variables: u32,
            values: *mut u64,
            two: usize,
        ) -> u32;
        pub fn tinzoher_prune(
            words: *const u32,
            n: usize,
            work: *mut u32,
            work_words: usize,
            result: *mut u32,
            result_words: usize,
            values: *mut u64,
            two: usize,
        ) -> u32;
        pub fn tinzoher_read_blocks(
            file: *const u8,
            bytes: usize,
            result: *mut u32,
            result_words: usize,
            values: *mut u64,
            two: usize,
        ) -> u32;
        pub fn tinzoher_write_blocks(
            words: *const u32,
            n: usize,
            result: *mut u8,
            result_bytes: usize,
            values: *mut u64,
            two: usize,
        ) -> u32;
        pub fn tinzoher_truth_counts(n: u32, values: *mut u64, three: usize) -> u32;
    }
}

/// The four verdicts, in the order of `VERDICTS`.
pub fn verdict(which: usize, words: &[u32], values: &mut [u64]) -> u32 {
    let function = match which {
        0 => c::tinzoher_is_pure_infallible,
        1 => c::tinzoher_is_pure_infallible_to_bool,
        2 => c::tinzoher_is_definitely_bool,
        _ => c::tinzoher_is_iterable_empty,
    };
    // The slices are whole and do not overlap; so below.
    unsafe { function(words.as_ptr(), words.len(), values.as_mut_ptr(), values.len()) }
}

pub fn is_safe_to_inline_expr(words: &[u32], param_count: u32, values: &mut [u64]) -> u32 {
    unsafe {
        c::tinzoher_is_safe_to_inline_expr(words.as_ptr(), words.len(), param_count, values.as_mut_ptr(), values.len())
    }
}

/// What `inline_def_body` is told of the function's parameters.
#[derive(Copy, Clone, Debug)]
pub struct Parameters {
    pub count: u32,
    pub first_positional: bool,
    pub star: bool,
    pub variables: u32,
}

pub fn inline_def_body(words: &[u32], p: Parameters, values: &mut [u64]) -> u32 {
    unsafe {
        c::tinzoher_inline_def_body(
            words.as_ptr(),
            words.len(),
            p.count,
            p.first_positional,
            p.star,
            p.variables,
            values.as_mut_ptr(),
            values.len(),
        )
    }
}

pub fn prune(words: &[u32], work: &mut [u32], result: &mut [u32], values: &mut [u64]) -> u32 {
    unsafe {
        c::tinzoher_prune(
            words.as_ptr(),
            words.len(),
            work.as_mut_ptr(),
            work.len(),
            result.as_mut_ptr(),
            result.len(),
            values.as_mut_ptr(),
            values.len(),
        )
    }
}

pub fn read_blocks(file: &[u8], result: &mut [u32], values: &mut [u64]) -> u32 {
    unsafe {
        c::tinzoher_read_blocks(
            file.as_ptr(),
            file.len(),
            result.as_mut_ptr(),
            result.len(),
            values.as_mut_ptr(),
            values.len(),
        )
    }
}

pub fn write_blocks(words: &[u32], result: &mut [u8], values: &mut [u64]) -> u32 {
    unsafe {
        c::tinzoher_write_blocks(
            words.as_ptr(),
            words.len(),
            result.as_mut_ptr(),
            result.len(),
            values.as_mut_ptr(),
            values.len(),
        )
    }
}

pub fn truth_counts(n: u32, values: &mut [u64]) -> u32 {
    unsafe { c::tinzoher_truth_counts(n, values.as_mut_ptr(), values.len()) }
}

/// The state of a last block: six numbers. Any may stand there before it is begun.
#[repr(C)]
#[derive(Copy, Clone, Debug, PartialEq)]
pub struct LastBlock(pub [u32; 6]);

impl LastBlock {
    pub fn begin(&mut self, number: u16) {
        unsafe { c::tinzoher_last_block_new(self, number) }
    }

    pub fn step(&mut self, word: u32) {
        unsafe { c::tinzoher_last_block_step(self, word) }
    }

    pub fn answer(&self, values: &mut [u64]) -> u32 {
        unsafe { c::tinzoher_last_block_answer(self, values.as_mut_ptr(), values.len()) }
    }
}
