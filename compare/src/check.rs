//! One case: the library's answer and lent space against the Rust's answer and the model's refusals.
use crate::lent::Lent;
use crate::library;
use crate::library::Parameters;
use crate::model;
use crate::model::Refusal;
use crate::model::Sort;
use crate::report::Report;
use crate::report::Right;
use oracle::Inline;

/// Words of the longest input that is tried.
pub const MOST: usize = 16_200;
/// Work and result words that may be lent.
const MOST_WORK: usize = 16 * MOST + 64 + 1000;
const MOST_RESULT: usize = 3 * MOST + 1000;
/// Values that may be lent: one more than there ever are.
const MOST_VALUES: usize = 4;
/// The words of the empty string.
const EMPTY_STRING: [u32; 2] = [0x301, 0];
/// In values: what they hold before a call.
const UNSET: u64 = 0x5151_5151_5151_5151;

pub const VERDICTS: [&str; 4] =
    ["is_pure_infallible", "is_pure_infallible_to_bool", "is_definitely_bool", "is_iterable_empty"];

/// How much space a case lends.
#[derive(Copy, Clone, Debug)]
pub struct Room {
    /// Work words above (or below) those that are asked for.
    pub work: i64,
    /// Result elements above (or below) those of the answer.
    pub result: i64,
}

/// The lent space of all cases, and the report.
pub struct Checker {
    pub report: Report,
    /// Whether the Rust's strings have a length, so that it takes the empty string for an empty iterable.
    string_length: bool,
    words: Lent<u32>,
    work: Lent<u32>,
    result: Lent<u32>,
    file: Lent<u8>,
    bytes: Lent<u8>,
    values: Lent<u64>,
    calls: u64,
}

/// The answer: its number, and the values. A value that is not given stays as it was.
type Answer = (u32, u64, u64);

fn refused((number, place): Refusal) -> Answer {
    (number, place as u64, UNSET)
}

/// What the report says of a right answer.
fn said(right: Answer, answers: &[&'static str]) -> Right {
    if right.0 == 0 { Right::Answer(answers[right.1 as usize]) } else { Right::Refused(right.0) }
}

/// Whether the rule has a loop whose iterable, simplified, is the empty string.
fn loops_over_empty_string(words: &[u32]) -> bool {
    model::iterables(words).into_iter().any(|place| {
        let over = oracle::read_expr(&words[place]).expect("an accepted iterable");
        over.optimize().0.words() == EMPTY_STRING
    })
}

fn must(holds: bool, what: &str) -> Option<String> {
    (!holds).then(|| what.to_owned())
}

impl Checker {
    pub fn new(string_length: bool) -> Checker {
        Checker {
            report: Report::default(),
            string_length,
            words: Lent::new(MOST, 0xcafe_0001, 0),
            work: Lent::new(MOST_WORK, 0xcafe_0002, 0xf111_0002),
            result: Lent::new(MOST_RESULT, 0xcafe_0003, 0xf111_0003),
            file: Lent::new(70_000, 0xc4, 0),
            bytes: Lent::new(70_000, 0xc5, 0xf5),
            values: Lent::new(MOST_VALUES, 0xcafe_0006_cafe_0006, UNSET),
            calls: 0,
        }
    }

    /// Values for the next call: two, but now and then none, one or three.
    fn lend_values(&mut self) {
        self.calls += 1;
        let count = match self.calls % 64 {
            0 => 0,
            1 => 1,
            2 => 3,
            _ => 2,
        };
        self.values.lend(count);
    }

    /// What differs between a call's answer and the right one, as far as there was room for its values.
    fn differs(&self, number: u32, right: Answer) -> Option<String> {
        self.differs_in(number, right.0, &[right.1, right.2])
    }

    /// The same for however many values.
    fn differs_in(&self, number: u32, right: u32, given: &[u64]) -> Option<String> {
        let values = self.values.now();
        let all = given.iter().chain(std::iter::repeat(&UNSET));
        let same = number == right && values.iter().zip(all).all(|(got, value)| got == value);
        (!same).then(|| format!("answer {number} with values {values:?}, right is {right} with {given:?}"))
    }

    /// No word outside of what was lent to be written may change.
    fn kept(&self, words: &[u32]) -> Option<String> {
        let guarded = self.words.guarded() && self.values.guarded();
        must(guarded && self.words.now() == words, "input words or canaries changed")
    }

    /// The four verdicts.
    pub fn verdicts(&mut self, words: &[u32]) {
        let accepted = model::read(words, Sort::Expr);
        let rust = match accepted {
            Ok(()) => Some(oracle::read_expr(words).expect("an accepted expression")),
            Err(_) => None,
        };
        for (which, name) in VERDICTS.into_iter().enumerate() {
            let right = match (&rust, accepted) {
                (Some(e), _) => match which {
                    0 => (0, e.is_pure_infallible() as u64, UNSET),
                    1 => (0, e.is_pure_infallible_to_bool().map_or(2, |b| b as u64), UNSET),
                    2 => (0, e.is_definitely_bool() as u64, UNSET),
                    _ => (0, e.is_iterable_empty() as u64, UNSET),
                },
                (None, Err(refusal)) => refused(refusal),
                (None, Ok(())) => unreachable!(),
            };
            self.words.lend_copy(words);
            self.lend_values();
            let number = library::verdict(which, self.words.now(), self.values.loan());
            let difference = self.differs(number, right).or_else(|| self.kept(words));
            let known = self.string_length && which == 3 && words == EMPTY_STRING;
            self.report.suspect(name, words, said(right, &["no", "yes", "unknown"]), difference, known);
        }
    }

    /// Whether an expression is safe to inline, with the visits.
    pub fn safe(&mut self, words: &[u32], param_count: u32) {
        let right = match model::read(words, Sort::Expr) {
            Err(refusal) => refused(refusal),
            Ok(()) => {
                let e = oracle::read_expr(words).expect("an accepted expression");
                let (safe, visits) = e.is_safe_to_inline_expr(param_count);
                (0, safe as u64, visits as u64)
            }
        };
        self.words.lend_copy(words);
        self.lend_values();
        let number = library::is_safe_to_inline_expr(self.words.now(), param_count, self.values.loan());
        let difference = self.differs(number, right).or_else(|| self.kept(words));
        let difference = difference.map(|what| format!("{param_count} parameters: {what}"));
        self.report.case("is_safe_to_inline_expr", words, said(right, &["no", "yes"]), difference);
    }

    /// What a body gives to inlining.
    pub fn inline(&mut self, words: &[u32], p: Parameters) {
        let right = match model::read(words, Sort::Rule) {
            Err(refusal) => refused(refusal),
            Ok(()) => {
                let rule = oracle::read_rule(words).expect("an accepted rule");
                match rule.inline_def_body(p.count, p.first_positional, p.star, p.variables) {
                    Inline::Neither => (0, 0, 0),
                    Inline::TypeTest(text) => (0, 1, text as u64),
                    Inline::Safe(word) => (0, 2, word as u64),
                    Inline::NoneValue => (0, 3, 0),
                }
            }
        };
        self.words.lend_copy(words);
        self.lend_values();
        let number = library::inline_def_body(self.words.now(), p, self.values.loan());
        let difference = self.differs(number, right).or_else(|| self.kept(words));
        let difference = difference.map(|what| format!("{p:?}: {what}"));
        let answers = ["neither", "type test", "safe", "None"];
        self.report.case("inline_def_body", words, said(right, &answers), difference);
    }

    /// One pass over a rule, with so much space.
    pub fn prune(&mut self, words: &[u32], room: Room) {
        let need = model::work_needed(words.len());
        let work = (need as i64 + room.work).clamp(0, MOST_WORK as i64) as usize;
        let mut pruned = Vec::new();
        let mut foldable = 0;
        let accepted = model::prune(words, work);
        if accepted.is_ok() {
            let (rule, count) = oracle::read_rule(words).expect("an accepted rule").prune();
            (pruned, foldable) = (rule.words(), count);
        }
        let lent = (pruned.len() as i64 + room.result).clamp(0, MOST_RESULT as i64) as usize;
        let right = match accepted {
            Err(refusal) => refused(refusal),
            Ok(()) if lent < pruned.len() => refused((11, pruned.len())),
            Ok(()) => (0, pruned.len() as u64, foldable),
        };
        self.words.lend_copy(words);
        self.lend_values();
        let number = library::prune(self.words.now(), self.work.lend(work), self.result.lend(lent), self.values.loan());
        let difference = self.differs(number, right).or_else(|| self.kept(words)).or_else(|| {
            let untouched = right.0 == 5 || right.0 == 6;
            let work = if untouched { self.work.filled_from(0) } else { self.work.now().iter().all(|w| *w == 0) };
            let given = if right.0 == 0 { pruned.len() } else { 0 };
            must(self.work.guarded() && self.result.guarded(), "canaries of work or result changed")
                .or_else(|| must(work, if untouched { "work was touched" } else { "work is not zero" }))
                .or_else(|| must(self.result.now()[..given] == pruned[..given], "other words"))
                .or_else(|| must(self.result.filled_from(given), "the result past the answer changed"))
        });
        let difference =
            difference.map(|what| format!("{room:?}: {what}; the Rust gives {pruned:?}, here {:?}", self.result.now()));
        let right = match right.0 {
            0 if pruned == words => Right::Answer("the rule as it was"),
            0 => Right::Answer("pruned"),
            number => Right::Refused(number),
        };
        let known = self.string_length && accepted.is_ok() && loops_over_empty_string(words);
        self.report.suspect("prune", words, right, difference, known);
    }

    /// Reading a file of blocks. What is reported as words are the bytes.
    pub fn read_blocks(&mut self, file: &[u8], room: i64) {
        let read = model::read_blocks(file);
        let size = read.as_ref().map_or(0, |words| words.len());
        let lent = (size as i64 + room).clamp(0, MOST_RESULT as i64) as usize;
        let right = match &read {
            Err(refusal) => refused(*refusal),
            Ok(_) if lent < size => refused((11, size)),
            Ok(_) => (0, size as u64, UNSET),
        };
        self.file.lend_copy(file);
        self.lend_values();
        let number = library::read_blocks(self.file.now(), self.result.lend(lent), self.values.loan());
        let given = if right.0 == 0 { size } else { 0 };
        let difference = self
            .differs(number, right)
            .or_else(|| must(self.file.guarded() && self.file.now() == file, "the file or its canaries changed"))
            .or_else(|| must(self.result.guarded() && self.values.guarded(), "canaries changed"))
            .or_else(|| must(given == 0 || self.result.now()[..given] == read.as_ref().unwrap()[..], "other words"))
            .or_else(|| must(self.result.filled_from(given), "the result past the answer changed"));
        let bytes: Vec<u32> = file.iter().map(|b| *b as u32).collect();
        let right = if right.0 == 0 { Right::Answer("given") } else { Right::Refused(right.0) };
        self.report.case("read_blocks", &bytes, right, difference);
    }

    /// A last block word by word, asked before each word of the last few and at the end; at first the state holds
    /// anything.
    pub fn last_block(&mut self, number: u16, words: &[u32]) {
        let mut block = library::LastBlock([number as u32 ^ 0x5555_5555; 6]);
        block.begin(number);
        let mut difference = None;
        let mut right = (0, 0, 0);
        for handed in 0..=words.len() {
            if handed + 6 >= words.len() || handed % 64 == 0 {
                right = match model::last_block(number, &words[..handed]) {
                    Err(refusal) => refused(refusal),
                    Ok(None) => (0, 0, 0),
                    Ok(Some(count)) => (0, 1, count as u64),
                };
                let kept = block;
                self.lend_values();
                let answered = block.answer(self.values.loan());
                let wrong = self
                    .differs(answered, right)
                    .or_else(|| must(self.values.guarded() && block == kept, "the state or canaries changed"));
                difference = difference.or_else(|| wrong.map(|what| format!("block {number}, {handed} words: {what}")));
            }
            if let Some(word) = words.get(handed) {
                block.step(*word);
            }
        }
        let right = match right {
            (0, 0, _) => Right::Answer("nothing yet"),
            (0, _, _) => Right::Answer("counted"),
            (number, _, _) => Right::Refused(number),
        };
        self.report.case("last_block", words, right, difference);
    }

    /// How many expressions of n nodes have truth yes, no and unknown, with every room for the values.
    pub fn truth_counts(&mut self, n: u32, right: Result<[u64; 3], Refusal>) {
        for room in 0..=MOST_VALUES {
            self.values.lend(room);
            let number = library::truth_counts(n, self.values.loan());
            let difference = match right {
                Ok(counts) => self.differs_in(number, 0, &counts),
                Err((refusal, place)) => self.differs_in(number, refusal, &[place as u64]),
            };
            let difference = difference.or_else(|| must(self.values.guarded(), "canaries changed"));
            let said = right.map_or_else(|(refusal, _)| Right::Refused(refusal), |_| Right::Answer("counted"));
            self.report.case("truth_counts", &[n], said, difference);
        }
    }

    /// Writing words as a file of blocks.
    pub fn write_blocks(&mut self, words: &[u32], room: i64) {
        let counted = model::count(words);
        let file = if counted.is_ok() { model::write_blocks(words) } else { Vec::new() };
        let lent = (file.len() as i64 + room).clamp(0, 69_000) as usize;
        let right = match counted {
            Err(refusal) => refused(refusal),
            Ok(()) if lent < file.len() => refused((11, file.len())),
            Ok(()) => (0, file.len() as u64, UNSET),
        };
        self.words.lend_copy(words);
        self.lend_values();
        let number = library::write_blocks(self.words.now(), self.bytes.lend(lent), self.values.loan());
        let given = if right.0 == 0 { file.len() } else { 0 };
        let difference = self
            .differs(number, right)
            .or_else(|| self.kept(words))
            .or_else(|| must(self.bytes.guarded(), "canaries changed"))
            .or_else(|| must(self.bytes.now()[..given] == file[..given], "other bytes"))
            .or_else(|| must(self.bytes.filled_from(given), "the result past the answer changed"));
        let right = if right.0 == 0 { Right::Answer("given") } else { Right::Refused(right.0) };
        self.report.case("write_blocks", words, right, difference);
    }
}
