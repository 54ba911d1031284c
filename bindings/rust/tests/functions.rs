//! Every function, with its answers and its refusals.
use tinzoher::*;

const LOCAL: [u32; 2] = [2, 0];

/// if True: return local 0, else: break
const RULE: [u32; 10] = [1, 37, 257, 1, 1, 33, 2, 0, 1, 39];

/// Not around local 0, so many times.
fn nots(times: usize) -> Vec<u32> {
    let mut words = vec![779; times];
    words.extend(LOCAL);
    words
}

/// Words that no function of expressions takes, and their refusals.
fn refused_expressions() -> Vec<(Vec<u32>, Refusal)> {
    vec![
        (vec![], Refusal::WordCount(0)),
        (vec![2; 16129], Refusal::WordCount(16129)),
        (nots(200), Refusal::TooDeep(200)),
        (vec![2], Refusal::EndsEarly(1)),
        (vec![0], Refusal::WrongWord(0)),
        (vec![2, 0, 5], Refusal::WordsRemain(2)),
    ]
}

#[test]
fn pure() {
    assert_eq!(is_pure_infallible(&[7]), Ok(Verdict::Yes));
    assert_eq!(is_pure_infallible(&LOCAL), Ok(Verdict::No));
    for (words, refusal) in refused_expressions() {
        assert_eq!(is_pure_infallible(&words), Err(refusal));
    }
}

#[test]
fn truth() {
    assert_eq!(is_pure_infallible_to_bool(&[257, 1]), Ok(Truth::Yes));
    assert_eq!(
        is_pure_infallible_to_bool(&[12, 257, 0, 2, 0]),
        Ok(Truth::No)
    );
    assert_eq!(
        is_pure_infallible_to_bool(&[12, 2, 0, 257, 0]),
        Ok(Truth::Unknown)
    );
    for (words, refusal) in refused_expressions() {
        assert_eq!(is_pure_infallible_to_bool(&words), Err(refusal));
    }
}

#[test]
fn definitely_bool() {
    assert_eq!(is_definitely_bool(&nots(1)), Ok(Verdict::Yes));
    assert_eq!(is_definitely_bool(&nots(199)), Ok(Verdict::Yes));
    assert_eq!(is_definitely_bool(&LOCAL), Ok(Verdict::No));
    for (words, refusal) in refused_expressions() {
        assert_eq!(is_definitely_bool(&words), Err(refusal));
    }
}

#[test]
fn empty() {
    assert_eq!(is_iterable_empty(&[7]), Ok(Verdict::Yes));
    assert_eq!(is_iterable_empty(&[263, 2, 0]), Ok(Verdict::No));
    // The empty string; an other constant marked empty.
    assert_eq!(is_iterable_empty(&[769, 0]), Ok(Verdict::No));
    assert_eq!(is_iterable_empty(&[1537, 0, 131_076]), Ok(Verdict::Yes));
    for (words, refusal) in refused_expressions() {
        assert_eq!(is_iterable_empty(&words), Err(refusal));
    }
}

#[test]
fn safe() {
    assert_eq!(
        is_safe_to_inline_expr(&LOCAL, 1),
        Ok(Safety::Yes { visits: 1 })
    );
    assert_eq!(
        is_safe_to_inline_expr(&LOCAL, 0),
        Ok(Safety::No { visits: 1 })
    );
    assert_eq!(
        is_safe_to_inline_expr(&nots(100), 1),
        Ok(Safety::Yes { visits: 101 })
    );
    assert_eq!(
        is_safe_to_inline_expr(&nots(101), 1),
        Ok(Safety::No { visits: 101 })
    );
    // [1, 2, f()] and [f, 1, 2], f being captured.
    assert_eq!(
        is_safe_to_inline_expr(&[775, 513, 1, 513, 2, 16, 0, 3, 0], 1),
        Ok(Safety::No { visits: 5 })
    );
    assert_eq!(
        is_safe_to_inline_expr(&[775, 3, 0, 513, 1, 513, 2], 1),
        Ok(Safety::No { visits: 2 })
    );
    for (words, refusal) in refused_expressions() {
        assert_eq!(is_safe_to_inline_expr(&words, 1), Err(refusal));
    }
}

#[test]
fn inline() {
    let test = [1, 33, 1035, 3, 2, 0];
    assert_eq!(
        inline_def_body(&test, 1, true, true, 1),
        Ok(Inline::TypeTest(3))
    );
    assert_eq!(
        inline_def_body(&test, 1, false, true, 1),
        Ok(Inline::Neither)
    );
    assert_eq!(
        inline_def_body(&test, 1, false, false, 1),
        Ok(Inline::Safe(2))
    );
    assert_eq!(
        inline_def_body(&test, 1, false, false, 0),
        Ok(Inline::Neither)
    );
    assert_eq!(
        inline_def_body(&[0], 0, false, false, 0),
        Ok(Inline::NoneValue)
    );
    assert_eq!(
        inline_def_body(&[1, 39], 0, false, false, 0),
        Ok(Inline::Neither)
    );
    assert_eq!(
        inline_def_body(&[], 0, false, false, 0),
        Err(Refusal::WordCount(0))
    );
    assert_eq!(
        inline_def_body(&[1], 0, false, false, 0),
        Err(Refusal::EndsEarly(1))
    );
    assert_eq!(
        inline_def_body(&[1, 2], 0, false, false, 0),
        Err(Refusal::WrongWord(1))
    );
    assert_eq!(
        inline_def_body(&[0, 0], 0, false, false, 0),
        Err(Refusal::WordsRemain(1))
    );
    let mut deep = vec![1, 33];
    deep.extend(nots(199));
    assert_eq!(
        inline_def_body(&deep, 0, false, false, 0),
        Err(Refusal::TooDeep(201))
    );
}

#[test]
fn pruning() {
    let mut work = vec![9; work_words(RULE.len()) + 1];
    let mut result = [8; 6];
    assert_eq!(
        prune(&RULE, &mut work, &mut result),
        Ok(Pruned {
            words: 4,
            foldable: 0
        })
    );
    assert_eq!(result, [1, 33, 2, 0, 8, 8]);
    assert!(work.iter().all(|&word| word == 0));
    // return len([]): a call that is a foldable place
    let len = [1, 33, 272, 0, 1281, 0, 7];
    let mut work = vec![0; work_words(len.len())];
    assert_eq!(
        prune(&len, &mut work, &mut [0; 7]),
        Ok(Pruned {
            words: 7,
            foldable: 1
        })
    );
}

#[test]
fn pruning_refused() {
    let mut work = vec![9; work_words(RULE.len())];
    let mut result = [8; 3];
    assert_eq!(
        prune(&[], &mut work, &mut result),
        Err(Refusal::WordCount(0))
    );
    assert_eq!(
        prune(&RULE, &mut work[1..], &mut result),
        Err(Refusal::ShortWork(224))
    );
    assert_eq!(prune(&RULE, &mut [], &mut []), Err(Refusal::ShortWork(224)));
    assert!(work.iter().all(|&word| word == 9));
    assert_eq!(
        prune(&RULE, &mut work, &mut result),
        Err(Refusal::ShortResult(4))
    );
    assert!(work.iter().all(|&word| word == 0));
    assert_eq!(
        prune(&RULE, &mut work, &mut []),
        Err(Refusal::ShortResult(4))
    );
    assert_eq!(
        prune(&RULE[..9], &mut work, &mut result),
        Err(Refusal::EndsEarly(9))
    );
    assert_eq!(
        prune(&[1, 2], &mut work, &mut result),
        Err(Refusal::WrongWord(1))
    );
    assert_eq!(
        prune(&[0, 0], &mut work, &mut result),
        Err(Refusal::WordsRemain(1))
    );
    let mut deep = vec![1, 33];
    deep.extend(nots(199));
    let mut work = vec![9; work_words(deep.len())];
    assert_eq!(
        prune(&deep, &mut work, &mut result),
        Err(Refusal::TooDeep(201))
    );
    assert_eq!(result, [8; 3]);
}

#[test]
fn counted_truths() {
    let counts = |yes, no, unknown| Ok(TruthCounts { yes, no, unknown });
    assert_eq!(truth_counts(1), counts(1, 1, 1));
    assert_eq!(truth_counts(3), counts(6, 6, 9));
    assert_eq!(
        truth_counts(20),
        counts(2724859587026, 2724859587026, 9540311818085)
    );
    for n in [0, 21, 22, 1000, u32::MAX] {
        assert_eq!(truth_counts(n), Err(Refusal::NodeCount(n as usize)));
    }
}

#[test]
fn blocks() {
    let mut file = [7; 513];
    assert_eq!(write_blocks(&RULE, &mut file), Ok(512));
    assert_eq!(file[..4], 655360u32.to_le_bytes());
    assert_eq!(file[508..512], 655732u32.to_le_bytes());
    assert_eq!(file[512], 7);
    let mut words = [8; 12];
    assert_eq!(read_blocks(&file[..512], &mut words), Ok(10));
    assert_eq!(words[..10], RULE);
    assert_eq!(words[10..], [8, 8]);
}

/// A last block's words, of the rule above and with this number.
fn last_words(number: u32) -> Vec<u32> {
    let mut words = vec![number + 65536 * RULE.len() as u32];
    words.extend(RULE);
    words.resize(127, 0);
    words.push(words.iter().fold(0, |sum, word| sum.wrapping_add(*word)));
    words
}

/// What is known of a last block after these words.
fn last_block(number: u16, words: &[u32]) -> Result<Option<usize>, Refusal> {
    let mut block = LastBlock::new(number);
    for word in words {
        block.step(*word);
    }
    block.answer()
}

#[test]
fn last_block_word_by_word() {
    let words = last_words(3);
    let mut block = LastBlock::new(3);
    for word in &words {
        assert_eq!(block.answer(), Ok(None));
        block.step(*word);
    }
    assert_eq!(block.answer(), Ok(Some(10)));
    let whole = block;
    block.step(5);
    assert_eq!(block, whole);
    assert_eq!(last_block(65535, &last_words(65535)), Ok(Some(10)));
}

#[test]
fn last_block_refused() {
    let right = last_words(3);
    assert_eq!(last_block(2, &right), Err(Refusal::BlockHead(1024)));
    assert_eq!(last_block(65535, &right), Err(Refusal::BlockHead(33553920)));
    let mut words = right.clone();
    words[11] = 1;
    assert_eq!(last_block(3, &words), Err(Refusal::BlockSum(1536)));
    assert_eq!(last_block(3, &words[..127]), Ok(None));
    words[127] += 1;
    assert_eq!(last_block(3, &words), Err(Refusal::UnusedWord(1536)));
    words[0] = 3;
    assert_eq!(last_block(3, &words), Err(Refusal::BlockHead(1536)));
}

#[test]
fn blocks_refused() {
    let mut file = [7; 512];
    assert_eq!(write_blocks(&[], &mut file), Err(Refusal::WordCount(0)));
    assert_eq!(
        write_blocks(&RULE, &mut file[1..]),
        Err(Refusal::ShortResult(512))
    );
    assert_eq!(write_blocks(&RULE, &mut []), Err(Refusal::ShortResult(512)));
    assert_eq!(file, [7; 512]);
    assert_eq!(write_blocks(&RULE, &mut file), Ok(512));
    let mut words = [8; 10];
    assert_eq!(read_blocks(&[], &mut words), Err(Refusal::FileLength(0)));
    assert_eq!(
        read_blocks(&file[1..], &mut words),
        Err(Refusal::FileLength(511))
    );
    assert_eq!(
        read_blocks(&file, &mut words[1..]),
        Err(Refusal::ShortResult(10))
    );
    assert_eq!(read_blocks(&file, &mut []), Err(Refusal::ShortResult(10)));
    let mut damaged = file;
    damaged[0] = 1;
    assert_eq!(
        read_blocks(&damaged, &mut words),
        Err(Refusal::BlockHead(0))
    );
    damaged = file;
    damaged[4] = 2;
    assert_eq!(read_blocks(&damaged, &mut words), Err(Refusal::BlockSum(0)));
    damaged = file;
    damaged[44] = 1;
    damaged[508] += 1;
    assert_eq!(
        read_blocks(&damaged, &mut words),
        Err(Refusal::UnusedWord(0))
    );
    assert_eq!(words, [8; 10]);
}

/// As many values are written as there is room for, and the rest stays.
#[test]
fn room_for_values() {
    for room in 0..4 {
        let mut values = [5u64; 4];
        let words = LOCAL;
        let number = unsafe {
            ffi::tinzoher_is_safe_to_inline_expr(
                words.as_ptr(),
                words.len(),
                1,
                values.as_mut_ptr(),
                room,
            )
        };
        assert_eq!(number, 0);
        let mut expected = [5; 4];
        expected[..room.min(2)].fill(1);
        assert_eq!(values, expected);
    }
}

#[test]
fn refusals_are_shown() {
    let refusal = is_pure_infallible(&[]).unwrap_err();
    assert_eq!(refusal.number_and_place(), (5, 0));
    assert_eq!(refusal.to_string(), "refused 5 at 0");
}
