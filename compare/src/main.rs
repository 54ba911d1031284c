//! The proved library against the Rust's own functions. README.md says how to build and run it.
mod bench;
mod check;
mod families;
mod lent;
mod library;
mod model;
mod random;
mod report;
mod small;

use std::process::ExitCode;

use check::Checker;
use check::Room;
use library::Parameters;
use random::Numbers;
use random::damage;

/// Random cases if no number is given: at least a million of them are answered.
const CASES: u64 = 1_200_000;

/// Of the expressions with a forbidden node a sample has one in so many, of each family and kind in turn.
const FORBIDDEN_STEP: usize = 5;

const USAGE: &str = "\
compare run [SEED [CASES]]           random expressions, bodies and rules (1 and 1200000)
compare small [EXPR_NODES RULE_NODES]    all small expressions and rules (6 and 6)
compare counts [NODES]               all expressions over True, False, Local 0, Not, And and Or, and how many have each
                                     truth (9)
compare damaged [SEED [CASES]]       damaged words and files, and the limits (1 and 1200000)
compare folding [SEED [CASES]]       the oracle against its build without patches, on rules with nothing to fold
compare one ENTRY WORDS              one case: the Rust's answer and the library's, ENTRY being expr or rule
compare sample SEED COUNT            cases and the Rust's answers, one a line, for the lists that programs replay
compare bench [RULES]                times, also for the rules in a file: one a line, words in decimal, # a comment
--string-length before the command   the Rust's strings have a length, and it drops loops over the empty string; what
                                     differs for that reason is counted apart";

/// The most nodes of a random input, but for one in a thousand, which may have ten times as many.
const NODES: u32 = 400;

fn nodes(i: u64) -> u32 {
    if i % 1000 == 999 { 10 * NODES } else { NODES }
}

fn parameters(numbers: &mut Numbers) -> Parameters {
    Parameters {
        count: numbers.below(3),
        first_positional: !numbers.one_in(4),
        star: numbers.one_in(4),
        variables: numbers.below(4),
    }
}

/// Space for a pruning: mostly what is asked for or a little more; one time in ten less.
fn room(numbers: &mut Numbers) -> Room {
    let less = numbers.below(20);
    let short = numbers.pick(&[-1, -2, -64, i64::MIN / 4]);
    Room {
        work: if less == 0 { short } else { numbers.pick(&[0, 0, 1, 5, 900]) },
        result: if less == 1 { short } else { numbers.pick(&[0, 0, 1, 7, 500]) },
    }
}

/// A body whose first statement is often a return of something that may be inlined.
fn body(seed: u64, most: u32) -> Vec<u32> {
    let mut numbers = Numbers::new(seed ^ 0xb0d7);
    match numbers.below(32) {
        0 => vec![0],
        1 | 2 => {
            let (text, slot, rest) = (numbers.below(10), numbers.below(2), numbers.below(2));
            let mut words = vec![1 + rest, 33, 0x40b, text, 2, slot];
            words.extend([39].repeat(rest as usize));
            words
        }
        3..=26 => families::returned(&inlinable(seed, most.min(160))),
        _ => random::rule(seed, most),
    }
}

/// An expression with few nodes that are never safe: half of them have locals 0 to 2 in the place of those.
fn inlinable(seed: u64, most: u32) -> Vec<u32> {
    let mut numbers = Numbers::new(seed);
    let size = numbers.size(most);
    let tame = !numbers.one_in(4);
    let mut maker = random::Maker::new(numbers, random::Taste::Logic);
    maker.tame = tame;
    maker.expr(size, 1);
    maker.words
}

/// Random cases, all of them valid.
fn random_cases(checker: &mut Checker, seed: u64, cases: u64) {
    let mut numbers = Numbers::new(seed);
    for i in 0..cases {
        let own = numbers.next();
        let e = random::expr(own, nodes(i));
        checker.verdicts(&e);
        let e = if i % 2 == 0 { e } else { inlinable(own, 300) };
        checker.safe(&e, numbers.below(4));
        checker.inline(&body(own, nodes(i)), parameters(&mut numbers));
        checker.prune(&random::rule(own, nodes(i)), room(&mut numbers));
    }
}

/// All entry points on one list of words, whatever it holds.
fn everything(checker: &mut Checker, words: &[u32], numbers: &mut Numbers) {
    checker.verdicts(words);
    checker.safe(words, numbers.below(4));
    checker.inline(words, parameters(numbers));
    checker.prune(words, room(numbers));
    checker.write_blocks(words, numbers.pick(&[0, 0, 1, 512, -1, -512, 100]));
}

/// The inline check where a node is not safe; with one parameter more its local is.
fn forbidden_cases(checker: &mut Checker) {
    for words in families::forbidden() {
        checker.safe(&words, families::FORBIDDEN_PARAMS);
        checker.safe(&words, families::FORBIDDEN_PARAMS + 1);
    }
}

/// The last block of a file word by word, now and then one that is cut short, goes on, or was to have another number.
fn last_block_case(checker: &mut Checker, file: &[u8], numbers: &mut Numbers) {
    let first = file.len().saturating_sub(1) / 512;
    let mut words: Vec<u32> =
        file[512 * first..].chunks_exact(4).map(|b| u32::from_le_bytes([b[0], b[1], b[2], b[3]])).collect();
    match numbers.below(8) {
        0 => words.truncate(numbers.below(129) as usize),
        1 => words.extend((0..numbers.below(200)).map(|k| k * k)),
        _ => (),
    }
    let other = if numbers.one_in(16) { numbers.below(65_536) as u16 } else { 0 };
    checker.last_block(first as u16 ^ other, &words);
}

fn damaged_cases(checker: &mut Checker, seed: u64, cases: u64) {
    forbidden_cases(checker);
    let mut numbers = Numbers::new(seed ^ 0xda3a_6ed0);
    let mut lasts = Numbers::new(seed ^ 0x1a57_b10c);
    for words in families::limits() {
        everything(checker, &words, &mut numbers);
    }
    for i in 0..cases {
        let own = numbers.next();
        let mut words = match i % 1000 {
            0 => families::near_longest(&mut numbers),
            1..20 => families::near_deepest(&mut numbers),
            20 | 21 => random::rule(own, 10 * NODES),
            k if k % 2 == 0 => random::rule(own, NODES / 4),
            _ => random::expr(own, NODES / 4),
        };
        if i % 20 > 0 {
            damage(&mut words, &mut numbers);
        }
        everything(checker, &words, &mut numbers);
        let mut file = if words.is_empty() || words.len() > model::MOST_WORDS {
            vec![0; 512 * numbers.below(130) as usize]
        } else {
            model::write_blocks(&words)
        };
        families::damage_file(&mut file, &mut numbers);
        file.truncate(69_000);
        checker.read_blocks(&file, numbers.pick(&[0, 0, 1, 126, -1, -2, 40]));
        last_block_case(checker, &file, &mut lasts);
    }
}

fn small_cases(checker: &mut Checker, expr_nodes: usize, rule_nodes: usize) {
    let all = Parameters { count: 1, first_positional: true, star: false, variables: 1 };
    for e in small::exprs(expr_nodes) {
        checker.verdicts(&e);
        checker.safe(&e, 0);
        checker.safe(&e, 1);
        checker.prune(&families::returned(&e), Room { work: 0, result: 3 });
        checker.prune(&families::statement(&e), Room { work: 0, result: 3 });
        checker.prune(&[&[1, 37], &e[..], &[1, 32, 1, 39]].concat(), Room { work: 0, result: 3 });
        checker.prune(&[&[1, 38, 67, 0], &e[..], &[1, 32]].concat(), Room { work: 0, result: 3 });
        checker.inline(&families::returned(&e), all);
    }
    for rule in small::rules(rule_nodes) {
        checker.prune(&rule, Room { work: 0, result: 0 });
        checker.inline(&rule, all);
    }
}

/// The verdicts on all expressions whose truths the library counts, and its counts against how many the Rust says have
/// each truth; then numbers of nodes that are refused.
fn counted_cases(checker: &mut Checker, most: usize) {
    for (n, exprs) in small::counted(most).iter().enumerate().skip(1) {
        let mut right = [0; 3];
        for words in exprs {
            checker.verdicts(words);
            let truth = oracle::read_expr(words).expect("an expression").is_pure_infallible_to_bool();
            right[truth.map_or(2, |yes| !yes as usize)] += 1;
        }
        checker.truth_counts(n as u32, Ok(right));
    }
    for n in [0, 21, 22, 1000, u32::MAX] {
        checker.truth_counts(n, Err((19, n as usize)));
    }
}

/// The oracle against the build in which everything folds: equal where nothing is foldable.
fn folding(seed: u64, cases: u64) -> u64 {
    let mut numbers = Numbers::new(seed);
    let (mut unfoldable, mut changed, mut differences) = (0, 0, 0);
    for i in 0..cases {
        let words = random::rule(numbers.next(), nodes(i) / 4);
        let (pruned, foldable) = oracle::read_rule(&words).expect("a rule").prune();
        if foldable > 0 {
            continue;
        }
        let pruned = pruned.words();
        let (other, _) = oracle_folding::read_rule(&words).expect("a rule").prune();
        unfoldable += 1;
        changed += (pruned != words) as u64;
        if other.words() != pruned {
            differences += 1;
            eprintln!("DIFFERENCE: {words:?}\n  oracle {pruned:?}\n  folding {:?}", other.words());
        }
    }
    println!(
        "{cases} rules, {unfoldable} with nothing to fold; {changed} of these are pruned; {differences} differences"
    );
    differences
}

fn line(words: &[u32]) -> String {
    let all: Vec<String> = words.iter().map(|w| w.to_string()).collect();
    all.join(" ")
}

fn one(entry: &str, words: &[u32], checker: &mut Checker) {
    let mut values = [0; 2];
    if entry == "expr" {
        if let Some(e) = oracle::read_expr(words) {
            println!(
                "the Rust: pure {} truth {:?} bool {} empty {}",
                e.is_pure_infallible(),
                e.is_pure_infallible_to_bool(),
                e.is_definitely_bool(),
                e.is_iterable_empty()
            );
            let (made, foldable) = e.optimize();
            println!("the Rust: optimized {} foldable {foldable}", line(&made.words()));
        }
        for which in 0..4 {
            let number = library::verdict(which, words, &mut values);
            println!("the library: {} {number} {}", check::VERDICTS[which], values[0]);
        }
        checker.verdicts(words);
    } else {
        if let Some(rule) = oracle::read_rule(words) {
            let (made, foldable) = rule.prune();
            println!("the Rust: pruned {} foldable {foldable}", line(&made.words()));
        }
        let mut work = vec![0; model::work_needed(words.len())];
        let mut result = vec![0; 3 * words.len() + 64];
        let number = library::prune(words, &mut work, &mut result, &mut values);
        let given = if number == 0 { &result[..values[0] as usize] } else { &[] };
        println!("the library: {number} {values:?} {}", line(given));
        checker.prune(words, Room { work: 0, result: 0 });
    }
    checker.report.print("compared");
}

fn print_safe(words: &[u32], params: u32) {
    let (safe, visits) = oracle::read_expr(words).expect("an expression").is_safe_to_inline_expr(params);
    println!("safe {params} ; {} => {} {visits}", line(words), safe as u32);
}

/// Cases with the Rust's answers: the entry point, numbers besides the words and `;`, the words, `=>`, the answer.
fn sample(seed: u64, count: u64) {
    let mut numbers = Numbers::new(seed);
    for _ in 0..count {
        let own = numbers.next();
        let words = random::expr(own, 60);
        let e = oracle::read_expr(&words).expect("an expression");
        let truth = e.is_pure_infallible_to_bool().map_or(2, |b| b as u32);
        let (pure, boolean, empty) = (e.is_pure_infallible(), e.is_definitely_bool(), e.is_iterable_empty());
        println!("verdicts {} => {} {truth} {} {}", line(&words), pure as u32, boolean as u32, empty as u32);
        print_safe(&inlinable(own, 200), numbers.below(4));
        let (words, p) = (body(own, 60), parameters(&mut numbers));
        let rule = oracle::read_rule(&words).expect("a rule");
        let told = rule.inline_def_body(p.count, p.first_positional, p.star, p.variables);
        let (first, star) = (p.first_positional as u32, p.star as u32);
        println!("inline {} {first} {star} {} ; {} => {told:?}", p.count, p.variables, line(&words));
        let words = random::rule(own, 60);
        let (pruned, foldable) = oracle::read_rule(&words).expect("a rule").prune();
        println!("prune {} => {foldable} ; {}", line(&words), line(&pruned.words()));
    }
    for words in families::forbidden().iter().step_by(FORBIDDEN_STEP) {
        print_safe(words, families::FORBIDDEN_PARAMS);
    }
}

fn number<T: std::str::FromStr>(args: &[String], i: usize, otherwise: T) -> T {
    args.get(i).and_then(|a| a.parse().ok()).unwrap_or(otherwise)
}

fn main() -> ExitCode {
    let mut args: Vec<String> = std::env::args().skip(1).collect();
    let string_length = args.first().is_some_and(|a| a == "--string-length");
    if string_length {
        args.remove(0);
        oracle::set_string_length(true);
        oracle_folding::set_string_length(true);
    }
    let (seed, cases) = (number(&args, 1, 1u64), number(&args, 2, CASES));
    let mut checker = Checker::new(string_length);
    let command = args.first().map_or("", |a| a.as_str());
    match command {
        "run" => {
            random_cases(&mut checker, seed, cases);
            checker.report.print(&format!("random cases, seed {seed}"));
        }
        "small" => {
            let (exprs, rules) = (number(&args, 1, 6usize), number(&args, 2, 6usize));
            small_cases(&mut checker, exprs, rules);
            checker.report.print(&format!("all expressions of {exprs} nodes, all rules of {rules} nodes"));
        }
        "counts" => {
            let most = number(&args, 1, 9usize);
            counted_cases(&mut checker, most);
            checker.report.print(&format!("all expressions of at most {most} nodes whose truths are counted"));
        }
        "damaged" => {
            damaged_cases(&mut checker, seed, cases);
            checker.report.print(&format!("the limits, and damaged words and files, seed {seed}"));
        }
        "folding" => return ExitCode::from((folding(seed, cases) > 0) as u8),
        "one" if args.len() >= 2 => {
            let words: Vec<u32> = args[2..].iter().filter_map(|a| a.parse().ok()).collect();
            one(&args[1], &words, &mut checker);
        }
        "sample" => sample(seed, number(&args, 2, 100)),
        "bench" => bench::run(args.get(1).map(|a| a.as_str())),
        _ => {
            eprintln!("{USAGE}");
            return ExitCode::from(2);
        }
    }
    ExitCode::from((checker.report.differences() > 0) as u8)
}
