//! Expressions and rules that are as deep or as wide as they may be.
use crate::model::MOST_WORDS;
use crate::random::Numbers;

pub const LOCAL: [u32; 2] = [2, 0];

/// A family by its name: the words before the part that goes on, those behind it, and what it ends with.
struct Chain {
    name: &'static str,
    before: &'static [u32],
    behind: &'static [u32],
}

const CHAINS: &[Chain] = &[
    Chain { name: "Not", before: &[0x30b], behind: &[] },
    Chain { name: "TypeIs", before: &[0x40b, 2], behind: &[] },
    Chain { name: "And, left", before: &[12], behind: &[2, 1] },
    Chain { name: "And, right", before: &[12, 2, 1], behind: &[] },
    Chain { name: "Or, left", before: &[0x10c], behind: &[2, 1] },
    Chain { name: "Or, right", before: &[0x10c, 2, 1], behind: &[] },
    Chain { name: "And of And with False", before: &[12], behind: &[0x101, 0] },
    Chain { name: "Seq, left", before: &[13], behind: &[2, 1] },
    Chain { name: "Seq, right", before: &[13, 2, 1], behind: &[] },
    Chain { name: "If in the condition", before: &[9], behind: &[2, 1, 2, 2] },
    Chain { name: "If in the first arm", before: &[9, 2, 1], behind: &[2, 2] },
    Chain { name: "If in the second arm", before: &[9, 2, 1, 2, 2], behind: &[] },
    Chain { name: "List", before: &[0x107], behind: &[] },
    Chain { name: "Tuple", before: &[0x206, 2, 1], behind: &[] },
    Chain { name: "Dict", before: &[0x108, 2, 1], behind: &[] },
    Chain { name: "type call", before: &[0x110, 0, 0x401, 0], behind: &[] },
    Chain { name: "Dot", before: &[0x70b, 9], behind: &[] },
    Chain { name: "Add", before: &[0x30e], behind: &[2, 1] },
];

/// One chain so many levels deep, the node at its end being one of them.
fn chain_to(c: &Chain, levels: usize, end: &[u32]) -> Vec<u32> {
    [&c.before.repeat(levels - 1), end, &c.behind.repeat(levels - 1)].concat()
}

/// One chain with a local at its end.
fn chain(c: &Chain, levels: usize) -> Vec<u32> {
    chain_to(c, levels, &LOCAL)
}

/// Chains of so many levels, by name.
pub fn chains(levels: usize) -> impl Iterator<Item = (&'static str, Vec<u32>)> {
    CHAINS.iter().map(move |c| (c.name, chain(c, levels)))
}

/// A part as often as it fits.
fn wide(kind: u32, part: &[u32], room: usize) -> Vec<u32> {
    let count = ((room - 1) / part.len()) as u32;
    let pairs = if kind == 8 { count / 2 } else { count };
    let mut words = vec![kind | pairs << 8];
    let count = if kind == 8 { 2 * pairs } else { count };
    words.extend(part.repeat(count as usize));
    words
}

/// The expression statement `e` alone.
pub fn statement(e: &[u32]) -> Vec<u32> {
    [&[1, 34], e].concat()
}

/// The statement `return e` alone.
pub fn returned(e: &[u32]) -> Vec<u32> {
    [&[1, 33], e].concat()
}

/// A list of so many statements.
fn listed(stmt: &[u32], room: usize) -> Vec<u32> {
    let count = (room - 1) / stmt.len();
    [&[count as u32], &stmt.repeat(count)[..]].concat()
}

/// The call of a local without arguments.
const CALL: [u32; 4] = [16, 0, 2, 0];

/// Rules of nearly so many words, by name: chains of 199 levels side by side, wide nodes and long lists.
pub fn rules(room: usize) -> Vec<(String, Vec<u32>)> {
    let mut all = Vec::new();
    for (name, words) in chains(199) {
        if room > words.len() + 1 {
            let stmt = [&[34], &words[..]].concat();
            all.push((format!("{name}, 199 levels"), listed(&stmt, room)));
        }
    }
    let wide_of = |kind, part: &[u32]| returned(&wide(kind, part, room - 2));
    all.push(("a list of locals".to_owned(), wide_of(7, &LOCAL)));
    all.push(("a tuple of locals".to_owned(), wide_of(6, &LOCAL)));
    all.push(("a tuple of constants".to_owned(), wide_of(6, &[0x201, 1])));
    all.push(("a dict of locals".to_owned(), wide_of(8, &LOCAL)));
    all.push(("a list of calls, as a statement".to_owned(), statement(&wide(7, &CALL, room - 2))));
    all.push(("a list of empty lists, as a statement".to_owned(), statement(&wide(7, &[7], room - 2))));
    all.push(("statements: calls".to_owned(), listed(&[34, 16, 0, 2, 0], room)));
    all.push(("statements: constants".to_owned(), listed(&[34, 0x101, 0], room)));
    all.push(("statements: Gc".to_owned(), listed(&[32], room)));
    all.push(("statements: If with empty arms".to_owned(), listed(&[37, 2, 0, 0, 0], room)));
    all.push(("statements: If of a constant".to_owned(), listed(&[37, 0x101, 1, 1, 32, 0], room)));
    all.push(("If statements, nested".to_owned(), nested_ifs(room)));
    all
}

/// If statements 190 deep side by side.
fn nested_ifs(room: usize) -> Vec<u32> {
    // If L: (one If ..) else: nothing
    let levels = 190;
    let mut stmt = [37, 2, 0, 1].repeat(levels);
    stmt.extend([32]);
    stmt.extend([0].repeat(levels));
    listed(&stmt, room)
}

/// A rule of nearly so many words, always 14 levels deep: the same few statements side by side.
pub fn alike(room: usize) -> Vec<u32> {
    // If L and not f(L): x = [L, ".."]; else: return g(If chain)
    let chain: Vec<u32> = chain(&CHAINS[3], 11);
    let mut stmt = vec![37, 12, 2, 0, 0x30b, 0x110, 0, 2, 3, 2, 1];
    stmt.extend([1, 35, 0, 67, 4, 0x207, 2, 0, 0x301, 12]);
    stmt.extend([1, 34, 0x110, 0, 2, 5]);
    stmt.extend(chain);
    listed(&stmt, room)
}

/// Inputs at the limits, expressions and rules alike: 199 to 201 levels, 16,127 to 16,129 words, empty words.
pub fn limits() -> Vec<Vec<u32>> {
    let mut all = vec![vec![]];
    for levels in [1, 2, 199, 200, 201, 210] {
        for (_, words) in chains(levels) {
            // As a part of a statement the expression is one deeper.
            all.extend([statement(&words), returned(&words)]);
            all.push([&[1, 37], &words[..], &[1, 32, 1, 39]].concat());
            all.push(words);
        }
        let mut ifs = vec![1];
        ifs.extend([37, 2, 0, 0, 1].repeat(levels - 1));
        ifs.push(32);
        all.push(ifs);
        all.push([&[1, 35, 0], &[0x142].repeat(levels)[..], &[67, 0, 2, 0]].concat());
    }
    for room in MOST_WORDS - 1..=MOST_WORDS + 1 {
        for part in [&LOCAL[..], &[7], &[0x101, 1]] {
            for kind in 6..=8 {
                let mut words = wide(kind, part, room);
                all.push([&[1, 33], &words[..words.len() - part.len()]].concat());
                words.resize(room, 7);
                all.push(words);
            }
        }
        let mut list = vec![room as u32 - 1];
        list.extend([32].repeat(room - 1));
        all.push(list);
    }
    all.extend(rules(MOST_WORDS).into_iter().map(|(_, words)| words));
    all
}

/// The locals of `forbidden` are below this count but for one, which is at it.
pub const FORBIDDEN_PARAMS: u32 = 3;

/// Expressions with one node that is not safe to inline, first, second and so on in word order up to beyond the limit
/// of 101: at the end of a chain, and in a list, as the last part or with others behind it.
pub fn forbidden() -> Vec<Vec<u32>> {
    let one = [0x201, 1];
    let mut all = Vec::new();
    for place in 1..=105 {
        for odd in [[3, 0], [4, 0], [5, 0], [2, FORBIDDEN_PARAMS]] {
            all.extend(CHAINS.iter().map(|c| chain_to(c, place, &odd)));
            for behind in [0, 1, 150] {
                let list = [7 | ((place + behind) as u32) << 8];
                all.push([&list, &one.repeat(place - 1)[..], &odd, &one.repeat(behind)].concat());
            }
        }
    }
    all
}

/// One chain of nearly 200 levels, alone, as a statement or as a condition.
pub fn near_deepest(numbers: &mut Numbers) -> Vec<u32> {
    let c = &CHAINS[numbers.below(CHAINS.len() as u32) as usize];
    let words = chain(c, 195 + numbers.below(10) as usize);
    match numbers.below(3) {
        0 => words,
        1 => statement(&words),
        _ => [&[1, 37], &words[..], &[1, 32, 1, 39]].concat(),
    }
}

/// A rule of nearly the most words.
pub fn near_longest(numbers: &mut Numbers) -> Vec<u32> {
    let rules = rules(MOST_WORDS - numbers.below(2) as usize);
    let one = numbers.below(rules.len() as u32) as usize;
    rules.into_iter().nth(one).map_or(vec![], |(_, words)| words)
}

/// A file of blocks after some damage; often its last word is the right sum all the same.
pub fn damage_file(file: &mut Vec<u8>, numbers: &mut Numbers) {
    for _ in 0..numbers.below(3) {
        if file.is_empty() {
            return;
        }
        let block = numbers.below((file.len() / 512).max(1) as u32) as usize * 512;
        match numbers.below(8) {
            0 => file.truncate(numbers.below(file.len() as u32) as usize),
            1 => file.extend([0].repeat(numbers.below(700) as usize)),
            2 => file.truncate(block),
            3 if file.len() >= block + 4 => file[block + numbers.below(4) as usize] ^= 1 << numbers.below(8),
            4 if file.len() >= block + 512 => file[block + 508 + numbers.below(4) as usize] ^= 1 << numbers.below(8),
            5 if file.len() >= block + 512 => file[block + 4 + numbers.below(504) as usize] ^= 1 << numbers.below(8),
            6 => {
                let at = numbers.below(file.len() as u32) as usize;
                file[at] = numbers.next() as u8;
            }
            _ => {
                // Number and count anew.
                if file.len() >= block + 4 {
                    let count = numbers.below(130) as u16;
                    file[block + 2..block + 4].copy_from_slice(&count.to_le_bytes());
                }
            }
        }
    }
    if !numbers.one_in(3) {
        for block in file.chunks_exact_mut(512) {
            let sum = block[..508]
                .chunks(4)
                .fold(0u32, |sum, b| sum.wrapping_add(u32::from_le_bytes([b[0], b[1], b[2], b[3]])));
            block[508..].copy_from_slice(&sum.to_le_bytes());
        }
    }
}
