//! Times of one pass over a rule, here and in the Rust, and of reading a file of blocks here, of which the Rust has
//! nothing.
//!
//! Here: `tinzoher_prune`, from words to words, with reading, the copy in, the copy out, and clearing the work words,
//! which are exactly as many as are asked for. The Rust: its own pass over a tree that has been read, from tree to
//! tree; the tree it makes is freed outside of the first time and within the second.
use std::hint::black_box;

use crate::families;
use crate::library;
use crate::model;
use crate::random;

/// Nanoseconds for one pass.
struct Times {
    ours: f64,
    rust: f64,
    rust_freed: f64,
}

/// Each time is the least of so many rounds; the sides take turns.
const ROUNDS: usize = 15;
/// A round lasts about so long for each side.
const ROUND: f64 = 3e6;

/// Nanoseconds of processor time that this thread has used: what other programs do shows less in it than in the time
/// that has passed.
fn now() -> f64 {
    const THREAD_CPUTIME: i32 = 3;
    unsafe extern "C" {
        fn clock_gettime(clock: i32, time: *mut [i64; 2]) -> i32;
    }
    let mut time = [0i64; 2];
    // The kernel writes two numbers: seconds and nanoseconds.
    let failed = unsafe { clock_gettime(THREAD_CPUTIME, &mut time) };
    assert_eq!(failed, 0);
    time[0] as f64 * 1e9 + time[1] as f64
}

/// The least time of one call of each side, over rounds. A side is told how many calls to make, and says how long they
/// took.
fn least<const SIDES: usize>(mut sides: [&mut dyn FnMut(usize) -> f64; SIDES]) -> [f64; SIDES] {
    let mut calls = [1; SIDES];
    for (side, calls) in sides.iter_mut().zip(&mut calls) {
        while side(*calls) < ROUND / 2.0 {
            *calls *= 2;
        }
    }
    let mut least = [f64::INFINITY; SIDES];
    for _ in 0..ROUNDS {
        for (i, side) in sides.iter_mut().enumerate() {
            least[i] = least[i].min(side(calls[i]) / calls[i] as f64);
        }
    }
    least
}

/// Mean times of one pass over these rules.
fn times(rules: &[Vec<u32>]) -> Times {
    let most = rules.iter().map(|words| words.len()).max().unwrap_or(0);
    let mut work = vec![0; model::work_needed(most)];
    let mut result = vec![0; 3 * most + 64];
    let mut values = [0; 2];
    let mut ours = |calls: usize| {
        let start = now();
        for _ in 0..calls {
            for words in rules {
                let need = model::work_needed(words.len());
                let number = library::prune(black_box(words), &mut work[..need], &mut result, &mut values);
                black_box(number);
            }
        }
        now() - start
    };
    let trees: Vec<oracle::Rule> = rules.iter().map(|words| oracle::read_rule(words).expect("a rule")).collect();
    let mut freed = |calls: usize| {
        let start = now();
        for _ in 0..calls {
            for tree in &trees {
                drop(black_box(black_box(tree).prune()));
            }
        }
        now() - start
    };
    // The results of one round over the rules are kept at a time, so that memory is used again.
    let mut kept = Vec::with_capacity(trees.len());
    let mut pass = |calls: usize| {
        let mut total = 0.0;
        for _ in 0..calls {
            let start = now();
            for tree in &trees {
                kept.push(black_box(tree).prune());
            }
            total += now() - start;
            kept.clear();
        }
        total
    };
    let each = rules.len() as f64;
    let [ours, rust, rust_freed] = least([&mut ours, &mut pass, &mut freed]).map(|ns| ns / each);
    Times { ours, rust, rust_freed }
}

fn duration(ns: f64) -> String {
    match ns {
        ns if ns < 10_000.0 => format!("{ns:.0} ns"),
        ns if ns < 10_000_000.0 => format!("{:.1} µs", ns / 1e3),
        ns => format!("{:.1} ms", ns / 1e6),
    }
}

fn header(first: &str) {
    println!("\n| {first} | words | here | the Rust's pass | with freeing | here / pass | million words a second |");
    println!("|---|---|---|---|---|---|---|");
}

fn row(name: &str, rules: &[Vec<u32>]) {
    let t = times(rules);
    let words = rules.iter().map(|words| words.len()).sum::<usize>() as f64 / rules.len() as f64;
    println!(
        "| {name} | {words:.0} | {} | {} | {} | {:.2} | {:.0} |",
        duration(t.ours),
        duration(t.rust),
        duration(t.rust_freed),
        t.ours / t.rust,
        words / t.ours * 1e3
    );
}

/// The least time of one reading of a file of blocks, with so many rule words.
fn reading(words: usize) {
    let rule: Vec<u32> = (0..words as u32).map(|k| k.wrapping_mul(2_654_435_761)).collect();
    let mut file = vec![0; 512 * words.div_ceil(126)];
    let mut result = vec![0; words];
    let mut values = [0; 2];
    assert_eq!(library::write_blocks(&rule, &mut file, &mut values), 0);
    let mut read = |calls: usize| {
        let start = now();
        for _ in 0..calls {
            let number = library::read_blocks(black_box(&file), &mut result, &mut values);
            assert_eq!(black_box(number), 0);
        }
        now() - start
    };
    let [ns] = least([&mut read]);
    println!("| {words} | {} | {} | {:.0} |", file.len() / 512, duration(ns), file.len() as f64 / ns * 1e3);
}

/// The least time of handing over a last block of so many rule words one by one, and its answer.
fn stepping(words: usize) {
    let rule: Vec<u32> = (0..words as u32).map(|k| k.wrapping_mul(2_654_435_761)).collect();
    let file = model::write_blocks(&rule);
    let block: Vec<u32> = file.chunks(4).map(|b| u32::from_le_bytes([b[0], b[1], b[2], b[3]])).collect();
    let mut values = [0; 2];
    let mut handed = |calls: usize| {
        let start = now();
        for _ in 0..calls {
            let mut state = library::LastBlock([0; 6]);
            state.begin(0);
            for word in black_box(&block) {
                state.step(*word);
            }
            assert_eq!((state.answer(&mut values), values[1]), (0, words as u64));
        }
        now() - start
    };
    let [ns] = least([&mut handed]);
    println!("| {words}, word by word | 1 | {} | {:.0} |", duration(ns), file.len() as f64 / ns * 1e3);
}

/// The rules of a file that are accepted: one a line, `#` begins a comment.
fn rules_of(path: &str) -> Vec<Vec<u32>> {
    let text = std::fs::read_to_string(path).unwrap_or_else(|e| panic!("{path}: {e}"));
    let lines = text.lines().filter(|line| !line.starts_with('#') && !line.trim().is_empty());
    let all = lines.filter_map(|line| line.split_whitespace().map(|w| w.parse().ok()).collect::<Option<Vec<u32>>>());
    all.filter(|words| model::read(words, model::Sort::Rule).is_ok()).collect()
}

/// So many random rules whose length is in a range.
fn drawn(count: usize, least: usize, most: usize) -> Vec<Vec<u32>> {
    let mut made = Vec::new();
    let mut seed = 1;
    while made.len() < count {
        let words = random::rule(seed, most as u32);
        if (least..=most).contains(&words.len()) {
            made.push(words);
        }
        seed += 1;
    }
    made
}

pub fn run(path: Option<&str>) {
    if let Some(path) = path {
        let mut rules = rules_of(path);
        rules.sort_by_key(|words| words.len());
        println!("\nReal rules: {} accepted, median {} words.", rules.len(), rules[rules.len() / 2].len());
        header("real rules");
        for (name, least, most) in [
            ("to 15 words", 1, 15),
            ("16 to 63 words", 16, 63),
            ("64 to 255 words", 64, 255),
            ("256 words and more", 256, 16_128),
        ] {
            let some: Vec<Vec<u32>> =
                rules.iter().filter(|words| (least..=most).contains(&words.len())).cloned().collect();
            if !some.is_empty() {
                row(&format!("{name}: {} rules", some.len()), &some);
            }
        }
        row("all", &rules);
    }
    header("random rules");
    for (least, most) in [(8, 15), (16, 63), (64, 255), (256, 1023), (1024, 4095), (4096, 16_128)] {
        row(&format!("{least} to {most} words: 100 rules"), &drawn(100, least, most));
    }
    header("growth: 14 levels, side by side");
    for room in [250, 1000, 4000, 16_128] {
        row("real-like statements", &[families::alike(room)]);
    }
    println!("\n| reading a file of so many rule words | blocks | here | million bytes a second |");
    println!("|---|---|---|---|");
    for words in [1, 40, 100, 126, 127, 252, 1_008, 16_128] {
        reading(words);
    }
    stepping(40);
    header("families");
    for (name, words) in families::rules(model::MOST_WORDS) {
        row(&name, &[words]);
    }
}
