//! All small expressions and rules over a few kinds, by their number of nodes.

type Words = Vec<u32>;

/// What small expressions are made of: whole leaves, and the words before one, two or three parts.
struct Alphabet {
    leaves: &'static [&'static [u32]],
    unary: &'static [&'static [u32]],
    binary: &'static [&'static [u32]],
    ternary: &'static [&'static [u32]],
}

const NOT: &[u32] = &[0x30b];
const TYPE_IS: &[u32] = &[0x40b, 2];
const TYPE_CALL: &[u32] = &[0x110, 0, 0x401, 0];
const LOCAL: &[u32] = &[2, 0];
const FALSE: &[u32] = &[0x101, 0];
const TRUE: &[u32] = &[0x101, 1];
/// The call of a local without arguments.
const CALL: &[u32] = &[16, 0, 2, 0];

const EXPRS: Alphabet = Alphabet {
    // The two bools, the empty string, 1, the type function, a local, an empty list, tuple and dict.
    leaves: &[FALSE, TRUE, &[0x301, 0], &[0x201, 1], &[0x401, 0], LOCAL, &[7], &[6], &[8]],
    // Not, TypeIs bool, a list of one, a type call, Dot.
    unary: &[NOT, TYPE_IS, &[0x107], TYPE_CALL, &[0x70b, 9]],
    // And, Or, Seq, In, a tuple of two, a dict of one pair.
    binary: &[&[12], &[0x10c], &[13], &[0x10e], &[0x206], &[0x108]],
    // If.
    ternary: &[&[9]],
};

const IN_RULES: Alphabet = Alphabet {
    leaves: &[FALSE, TRUE, LOCAL, CALL, &[7]],
    unary: &[NOT, TYPE_IS, &[0x107], TYPE_CALL],
    binary: &[&[12], &[0x10c], &[13]],
    ternary: &[&[9]],
};

/// What the library counts the truths of.
const COUNTED: Alphabet =
    Alphabet { leaves: &[TRUE, FALSE, LOCAL], unary: &[NOT], binary: &[&[12], &[0x10c]], ternary: &[] };

fn joined(parts: &[&[u32]]) -> Words {
    parts.concat()
}

/// `all[n]` has all expressions of n nodes; a type call's callee is no node of its own here.
fn all_exprs(alphabet: &Alphabet, most: usize) -> Vec<Vec<Words>> {
    let mut all: Vec<Vec<Words>> = vec![vec![], alphabet.leaves.iter().map(|leaf| leaf.to_vec()).collect()];
    for size in 2..=most {
        let mut made = Vec::new();
        for part in &all[size - 1] {
            made.extend(alphabet.unary.iter().map(|head| joined(&[head, part])));
        }
        for left in 1..size - 1 {
            for (x, y) in pairs(&all[left], &all[size - 1 - left]) {
                made.extend(alphabet.binary.iter().map(|head| joined(&[head, x, y])));
            }
        }
        for left in 1..size - 1 {
            for middle in 1..size - 1 - left {
                for (x, y) in pairs(&all[left], &all[middle]) {
                    for z in &all[size - 1 - left - middle] {
                        made.extend(alphabet.ternary.iter().map(|head| joined(&[head, x, y, z])));
                    }
                }
            }
        }
        all.push(made);
    }
    all
}

fn pairs<'a>(xs: &'a [Words], ys: &'a [Words]) -> impl Iterator<Item = (&'a Words, &'a Words)> {
    xs.iter().flat_map(move |x| ys.iter().map(move |y| (x, y)))
}

/// Every expression of at most so many nodes.
pub fn exprs(most: usize) -> impl Iterator<Item = Words> {
    all_exprs(&EXPRS, most).into_iter().flatten()
}

/// Every expression over True, False, Local 0, Not, And and Or of at most so many nodes, by its number of nodes.
pub fn counted(most: usize) -> Vec<Vec<Words>> {
    all_exprs(&COUNTED, most)
}

/// Lists without their count: how many statements, and their words.
type List = (u32, Words);

/// Every rule of at most so many nodes. A loop's target is no node of its own here.
pub fn rules(most: usize) -> impl Iterator<Item = Words> {
    let exprs = all_exprs(&IN_RULES, most);
    // By nodes: statements, and lists of them.
    let mut stmts: Vec<Vec<Words>> = vec![vec![]];
    let mut lists: Vec<Vec<List>> = vec![vec![(0, vec![])]];
    for size in 1..=most {
        let mut made: Vec<Words> = Vec::new();
        if size == 1 {
            made.extend([vec![32], vec![39], vec![40]]);
        }
        for e in &exprs[size - 1] {
            made.extend([joined(&[&[33], e]), joined(&[&[34], e])]);
        }
        for condition in 1..size {
            for e in &exprs[condition] {
                for left in 0..size - condition {
                    for (n, yes) in &lists[left] {
                        for (m, no) in &lists[size - 1 - condition - left] {
                            made.push(joined(&[&[37], e, &[*n], yes, &[*m], no]));
                        }
                    }
                }
                for (n, body) in &lists[size - 1 - condition] {
                    made.push(joined(&[&[38, 67, 0], e, &[*n], body]));
                }
            }
        }
        stmts.push(made);
        let mut longer: Vec<List> = Vec::new();
        for first in 1..=size {
            for stmt in &stmts[first] {
                for (n, rest) in &lists[size - first] {
                    longer.push((n + 1, joined(&[stmt, rest])));
                }
            }
        }
        lists.push(longer);
    }
    lists.into_iter().flatten().map(|(n, words)| joined(&[&[n], &words]))
}
