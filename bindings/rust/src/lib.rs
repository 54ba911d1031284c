//! Tinzoher from Rust: the pruning pass of the Starlark compiler, its verdicts, how often a truth is known, its
//! inlining checks, and the stored form of a rule. The functions are proved (`crates/exports/src`); here they are
//! declared and wrapped.
//!
//! None of them allocates, keeps state or asks anything of its input: any words, bytes and lengths get an answer or a
//! [`Refusal`]. A refusal leaves the result as it was, and an answer leaves the elements behind it as they were. Only a
//! [`LastBlock`] is a state, and its owner keeps it.
#![no_std]

use core::fmt;

/// The C functions, as `include/tinzoher.h` has them.
pub mod ffi {
    extern "C" {
        pub fn tinzoher_read_blocks(
            file: *const u8,
            file_len: usize,
            result: *mut u32,
            result_len: usize,
            values: *mut u64,
            values_len: usize,
        ) -> u32;
        pub fn tinzoher_write_blocks(
            words: *const u32,
            words_len: usize,
            result: *mut u8,
            result_len: usize,
            values: *mut u64,
            values_len: usize,
        ) -> u32;
        pub fn tinzoher_last_block_new(block: *mut crate::LastBlock, number: u16);
        pub fn tinzoher_last_block_step(block: *mut crate::LastBlock, word: u32);
        pub fn tinzoher_last_block_answer(
            block: *const crate::LastBlock,
            values: *mut u64,
            values_len: usize,
        ) -> u32;
        pub fn tinzoher_is_pure_infallible(
            words: *const u32,
            words_len: usize,
            values: *mut u64,
            values_len: usize,
        ) -> u32;
        pub fn tinzoher_is_pure_infallible_to_bool(
            words: *const u32,
            words_len: usize,
            values: *mut u64,
            values_len: usize,
        ) -> u32;
        pub fn tinzoher_is_definitely_bool(
            words: *const u32,
            words_len: usize,
            values: *mut u64,
            values_len: usize,
        ) -> u32;
        pub fn tinzoher_is_iterable_empty(
            words: *const u32,
            words_len: usize,
            values: *mut u64,
            values_len: usize,
        ) -> u32;
        pub fn tinzoher_is_safe_to_inline_expr(
            words: *const u32,
            words_len: usize,
            param_count: u32,
            values: *mut u64,
            values_len: usize,
        ) -> u32;
        pub fn tinzoher_inline_def_body(
            words: *const u32,
            words_len: usize,
            params: u32,
            first_positional: bool,
            star: bool,
            param_variables: u32,
            values: *mut u64,
            values_len: usize,
        ) -> u32;
        pub fn tinzoher_prune(
            words: *const u32,
            words_len: usize,
            work: *mut u32,
            work_len: usize,
            result: *mut u32,
            result_len: usize,
            values: *mut u64,
            values_len: usize,
        ) -> u32;
        pub fn tinzoher_truth_counts(n: u32, values: *mut u64, values_len: usize) -> u32;
    }
}

/// Why nothing was given, and where: the numbers and places are those of `include/tinzoher.h`.
#[derive(Debug, Clone, Copy, PartialEq, Eq)]
pub enum Refusal {
    /// 1: the file is empty, over 65,536 bytes or no multiple of 512; its length.
    FileLength(usize),
    /// 2: a block's number or its count of words is wrong; the byte where it begins.
    BlockHead(usize),
    /// 3: a block's sum is wrong; the byte where it begins.
    BlockSum(usize),
    /// 4: a word behind the last rule word is not zero; the byte where its block begins.
    UnusedWord(usize),
    /// 5: there are no words, or over 16,128; how many.
    WordCount(usize),
    /// 6: there are too few work words; how many are needed.
    ShortWork(usize),
    /// 7: a node is deeper than 200; its word.
    TooDeep(usize),
    /// 8: the words end early; the word that is missing.
    EndsEarly(usize),
    /// 9: a kind, detail or payload is wrong; its word.
    WrongWord(usize),
    /// 10: words remain; the first of them.
    WordsRemain(usize),
    /// 11: the result is short; the size needed, in its elements.
    ShortResult(usize),
    /// 19: expressions of no node, or of over 20, are not counted; how many nodes.
    NodeCount(usize),
}

impl Refusal {
    fn of(number: u32, place: usize) -> Refusal {
        match number {
            1 => Refusal::FileLength(place),
            2 => Refusal::BlockHead(place),
            3 => Refusal::BlockSum(place),
            4 => Refusal::UnusedWord(place),
            5 => Refusal::WordCount(place),
            6 => Refusal::ShortWork(place),
            7 => Refusal::TooDeep(place),
            8 => Refusal::EndsEarly(place),
            9 => Refusal::WrongWord(place),
            10 => Refusal::WordsRemain(place),
            11 => Refusal::ShortResult(place),
            19 => Refusal::NodeCount(place),
            _ => unreachable!("refusals have the numbers 1 to 11 and 19"),
        }
    }

    /// The number and the place.
    pub fn number_and_place(self) -> (u32, usize) {
        match self {
            Refusal::FileLength(place) => (1, place),
            Refusal::BlockHead(place) => (2, place),
            Refusal::BlockSum(place) => (3, place),
            Refusal::UnusedWord(place) => (4, place),
            Refusal::WordCount(place) => (5, place),
            Refusal::ShortWork(place) => (6, place),
            Refusal::TooDeep(place) => (7, place),
            Refusal::EndsEarly(place) => (8, place),
            Refusal::WrongWord(place) => (9, place),
            Refusal::WordsRemain(place) => (10, place),
            Refusal::ShortResult(place) => (11, place),
            Refusal::NodeCount(place) => (19, place),
        }
    }
}

impl fmt::Display for Refusal {
    fn fmt(&self, f: &mut fmt::Formatter<'_>) -> fmt::Result {
        let (number, place) = self.number_and_place();
        write!(f, "refused {number} at {place}")
    }
}

impl core::error::Error for Refusal {}

/// Yes or no.
#[derive(Debug, Clone, Copy, PartialEq, Eq)]
pub enum Verdict {
    No,
    Yes,
}

/// What is known of a truth.
#[derive(Debug, Clone, Copy, PartialEq, Eq)]
pub enum Truth {
    No,
    Yes,
    Unknown,
}

/// Whether an expression is safe to inline, with the nodes that were entered: all of them on a yes; on a no, in word
/// order, those up to and including the first that is forbidden, or 101 if the limit came first.
#[derive(Debug, Clone, Copy, PartialEq, Eq)]
pub enum Safety {
    No { visits: usize },
    Yes { visits: usize },
}

/// What a body gives to inlining.
#[derive(Debug, Clone, Copy, PartialEq, Eq)]
pub enum Inline {
    Neither,
    /// A type test of the first parameter, with its text's number.
    TypeTest(u32),
    /// A safe expression is returned, which begins at this word.
    Safe(usize),
    /// The body is empty: None.
    NoneValue,
}

/// How many words were put at the start of the result, and how many foldable places were met.
#[derive(Debug, Clone, Copy, PartialEq, Eq)]
pub struct Pruned {
    pub words: usize,
    pub foldable: usize,
}

/// How many expressions have truth yes, no and unknown.
#[derive(Debug, Clone, Copy, PartialEq, Eq)]
pub struct TruthCounts {
    pub yes: u64,
    pub no: u64,
    pub unknown: u64,
}

/// How many values are always enough.
const VALUES: usize = 3;

/// The values of an answer, or the refusal. A slice's pointer is aligned and not null even where the slice is empty,
/// and `&mut` keeps written slices apart from all others, which is what the C functions ask.
fn answered(call: impl FnOnce(*mut u64, usize) -> u32) -> Result<[u64; VALUES], Refusal> {
    let mut values = [0; VALUES];
    match call(values.as_mut_ptr(), values.len()) {
        0 => Ok(values),
        // x86-64: a usize has 64 bits; so below.
        number => Err(Refusal::of(number, values[0] as usize)),
    }
}

/// The same, where the values are places, lengths and the like.
fn told(call: impl FnOnce(*mut u64, usize) -> u32) -> Result<[usize; VALUES], Refusal> {
    Ok(answered(call)?.map(|value| value as usize))
}

fn verdict(answer: Result<[usize; VALUES], Refusal>) -> Result<Verdict, Refusal> {
    match answer?[0] {
        0 => Ok(Verdict::No),
        1 => Ok(Verdict::Yes),
        _ => unreachable!("a verdict is 0 or 1"),
    }
}

/// Reads a file of blocks: its rule words go to the start of `result`. Gives how many. Refusals 1 to 4 and 11.
pub fn read_blocks(file: &[u8], result: &mut [u32]) -> Result<usize, Refusal> {
    // SAFETY: the pointers and lengths are those of slices, and the written ones are borrowed as such.
    let answer = told(|values, room| unsafe {
        ffi::tinzoher_read_blocks(
            file.as_ptr(),
            file.len(),
            result.as_mut_ptr(),
            result.len(),
            values,
            room,
        )
    });
    Ok(answer?[0])
}

/// Writes rule words as a file of blocks to the start of `result`. Gives how many bytes. Refusals 5 and 11.
pub fn write_blocks(words: &[u32], result: &mut [u8]) -> Result<usize, Refusal> {
    // SAFETY: as in `read_blocks`.
    let answer = told(|values, room| unsafe {
        ffi::tinzoher_write_blocks(
            words.as_ptr(),
            words.len(),
            result.as_mut_ptr(),
            result.len(),
            values,
            room,
        )
    });
    Ok(answer?[0])
}

/// The last block of a file, for whoever is handed its words one at a time and once.
#[repr(C)]
#[derive(Debug, Clone, Copy, PartialEq, Eq)]
pub struct LastBlock {
    number: u32,
    seen: u32,
    head: u32,
    sum: u32,
    filled: u32,
    latest: u32,
}

impl LastBlock {
    /// The state before any word, for a block that is to have this number: how many blocks come before it.
    pub fn new(number: u16) -> LastBlock {
        let mut block = LastBlock {
            number: 0,
            seen: 0,
            head: 0,
            sum: 0,
            filled: 0,
            latest: 0,
        };
        // SAFETY: the pointer is that of a struct that is laid out as the C function has it, and borrowed alone; so
        // below.
        unsafe { ffi::tinzoher_last_block_new(&mut block, number) };
        block
    }

    /// Takes the next word. Behind the 128th no word changes anything.
    pub fn step(&mut self, word: u32) {
        // SAFETY: as in `new`.
        unsafe { ffi::tinzoher_last_block_step(self, word) };
    }

    /// What [`read_blocks`] would say of the block: `None` while fewer than 128 words were taken, then the count of its
    /// rule words, or refusal 2, 3 or 4 at 512 times the number that the block was to have.
    pub fn answer(&self) -> Result<Option<usize>, Refusal> {
        // SAFETY: as in `new`, and the values are as in `read_blocks`.
        let answer =
            told(|values, room| unsafe { ffi::tinzoher_last_block_answer(self, values, room) });
        match answer? {
            [0, ..] => Ok(None),
            [1, count, _] => Ok(Some(count)),
            _ => unreachable!("there is an answer or none yet"),
        }
    }
}

/// Whether the expression cannot fail and has no effect. Refusals 5 and 7 to 10.
pub fn is_pure_infallible(words: &[u32]) -> Result<Verdict, Refusal> {
    // SAFETY: as in `read_blocks`.
    verdict(told(|values, room| unsafe {
        ffi::tinzoher_is_pure_infallible(words.as_ptr(), words.len(), values, room)
    }))
}

/// The truth of the expression, where it is known without running anything. Refusals 5 and 7 to 10.
pub fn is_pure_infallible_to_bool(words: &[u32]) -> Result<Truth, Refusal> {
    // SAFETY: as in `read_blocks`.
    let answer = told(|values, room| unsafe {
        ffi::tinzoher_is_pure_infallible_to_bool(words.as_ptr(), words.len(), values, room)
    });
    match answer?[0] {
        0 => Ok(Truth::No),
        1 => Ok(Truth::Yes),
        2 => Ok(Truth::Unknown),
        _ => unreachable!("a truth is 0, 1 or 2"),
    }
}

/// Whether the expression can only give a bool. Refusals 5 and 7 to 10.
pub fn is_definitely_bool(words: &[u32]) -> Result<Verdict, Refusal> {
    // SAFETY: as in `read_blocks`.
    verdict(told(|values, room| unsafe {
        ffi::tinzoher_is_definitely_bool(words.as_ptr(), words.len(), values, room)
    }))
}

/// Whether a loop over the expression does nothing; of no string, as a loop over one fails. Refusals 5 and 7 to 10.
pub fn is_iterable_empty(words: &[u32]) -> Result<Verdict, Refusal> {
    // SAFETY: as in `read_blocks`.
    verdict(told(|values, room| unsafe {
        ffi::tinzoher_is_iterable_empty(words.as_ptr(), words.len(), values, room)
    }))
}

/// Whether the expression is safe to inline into calls of a function of so many parameters. Refusals 5 and 7 to 10.
pub fn is_safe_to_inline_expr(words: &[u32], param_count: u32) -> Result<Safety, Refusal> {
    // SAFETY: as in `read_blocks`.
    let answer = told(|values, room| unsafe {
        ffi::tinzoher_is_safe_to_inline_expr(words.as_ptr(), words.len(), param_count, values, room)
    });
    match answer? {
        [0, visits, _] => Ok(Safety::No { visits }),
        [1, visits, _] => Ok(Safety::Yes { visits }),
        _ => unreachable!("a verdict is 0 or 1"),
    }
}

/// What the body gives to inlining, of a function with so many parameters, the first of which takes a position or not,
/// with star parameters or none, and with so many parameter variables. Refusals 5 and 7 to 10.
pub fn inline_def_body(
    words: &[u32],
    params: u32,
    first_positional: bool,
    star: bool,
    param_variables: u32,
) -> Result<Inline, Refusal> {
    // SAFETY: as in `read_blocks`.
    let answer = told(|values, room| unsafe {
        ffi::tinzoher_inline_def_body(
            words.as_ptr(),
            words.len(),
            params,
            first_positional,
            star,
            param_variables,
            values,
            room,
        )
    });
    match answer? {
        [0, ..] => Ok(Inline::Neither),
        [1, text, _] => Ok(Inline::TypeTest(text as u32)),
        [2, word, _] => Ok(Inline::Safe(word)),
        [3, ..] => Ok(Inline::NoneValue),
        _ => unreachable!("there are four answers"),
    }
}

/// How many work words [`prune`] asks for so many words.
pub const fn work_words(words: usize) -> usize {
    16 * words + 64
}

/// Prunes the rule: the pruned rule's words go to the start of `result`, for which three times the words are enough.
///
/// The pruned rule runs as the rule does: the same operations on the same operands in the same order, and the same end,
/// whatever the operations answer. In every list of it, at any depth, no statement follows a Break, Continue or Return,
/// no expression statement is pure (as [`is_pure_infallible`] tells it), no If statement has two empty arms, or a Not
/// or a Seq as its condition, and no loop is over an empty iterable (as [`is_iterable_empty`] tells it).
///
/// `work` lends [`work_words`] words at least; all of them are zero afterwards, but after refusals 5 and 6 as they
/// were. Refusals 5 to 11.
pub fn prune(words: &[u32], work: &mut [u32], result: &mut [u32]) -> Result<Pruned, Refusal> {
    // SAFETY: as in `read_blocks`.
    let answer = told(|values, room| unsafe {
        ffi::tinzoher_prune(
            words.as_ptr(),
            words.len(),
            work.as_mut_ptr(),
            work.len(),
            result.as_mut_ptr(),
            result.len(),
            values,
            room,
        )
    });
    let [words, foldable, _] = answer?;
    Ok(Pruned { words, foldable })
}

/// How many of all expressions of exactly `n` nodes, built from True, False, Local 0, Not, And and Or, have truth yes,
/// no and unknown ([`is_pure_infallible_to_bool`]), for an `n` from 1 to 20. Refusal 19.
pub fn truth_counts(n: u32) -> Result<TruthCounts, Refusal> {
    // SAFETY: as in `read_blocks`.
    let [yes, no, unknown] =
        answered(|values, room| unsafe { ffi::tinzoher_truth_counts(n, values, room) })?;
    Ok(TruthCounts { yes, no, unknown })
}
