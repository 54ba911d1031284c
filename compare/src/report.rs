//! Counts of cases, refusals and differences.
use std::collections::BTreeMap;
use std::collections::HashSet;
use std::hash::DefaultHasher;
use std::hash::Hash;
use std::hash::Hasher;

/// What is right: an answer, by a name for its kind, or a refusal.
#[derive(Copy, Clone)]
pub enum Right {
    Answer(&'static str),
    Refused(u32),
}

/// One entry point's counts.
#[derive(Default)]
struct Count {
    cases: u64,
    answers: BTreeMap<&'static str, u64>,
    /// Hashes of the words: how many different ones there were.
    different: HashSet<u64>,
    words: u64,
    most: usize,
    refused: BTreeMap<u32, u64>,
    differences: u64,
    /// The differing case of fewest words: these, and what differs.
    smallest: Option<(Vec<u32>, String)>,
    /// Cases that may differ for a known reason, and those of them that do. They are no differences.
    suspects: u64,
    known: u64,
}

#[derive(Default)]
pub struct Report {
    counts: BTreeMap<&'static str, Count>,
}

impl Report {
    /// One case: the words (or a file's bytes), the right answer or the right refusal, and what differs.
    pub fn case(&mut self, entry: &'static str, words: &[u32], right: Right, difference: Option<String>) {
        self.suspect(entry, words, right, difference, false);
    }

    /// One case that may differ for a known reason, if `known` tells so.
    pub fn suspect(
        &mut self,
        entry: &'static str,
        words: &[u32],
        right: Right,
        difference: Option<String>,
        known: bool,
    ) {
        let count = self.counts.entry(entry).or_default();
        count.cases += 1;
        match right {
            Right::Answer(answer) => *count.answers.entry(answer).or_default() += 1,
            Right::Refused(number) => *count.refused.entry(number).or_default() += 1,
        }
        let mut hasher = DefaultHasher::new();
        words.hash(&mut hasher);
        count.different.insert(hasher.finish());
        count.words += words.len() as u64;
        count.most = count.most.max(words.len());
        count.suspects += known as u64;
        if known {
            count.known += difference.is_some() as u64;
        } else if let Some(what) = difference {
            count.differences += 1;
            if count.smallest.as_ref().is_none_or(|(least, _)| words.len() < least.len()) {
                eprintln!("DIFFERENCE in {entry}: {what}\n  {words:?}");
                count.smallest = Some((words.to_vec(), what));
            }
        }
    }

    pub fn differences(&self) -> u64 {
        self.counts.values().map(|c| c.differences).sum()
    }

    pub fn print(&self, title: &str) {
        println!("\n{title}\n");
        println!("| entry point | cases | different words | words, mean and most | answers | refusals | differences |");
        println!("|---|---|---|---|---|---|---|");
        for (entry, c) in &self.counts {
            let answers = listed(c.answers.iter());
            let refusals = listed(c.refused.iter());
            let (different, mean) = (c.different.len(), c.words / c.cases);
            println!(
                "| {entry} | {} | {different} | {mean}, {} | {answers} | {refusals} | {} |",
                c.cases, c.most, c.differences
            );
        }
        for (entry, c) in &self.counts {
            if c.suspects > 0 {
                println!("\n{entry}: the length of strings can show in {} cases, and shows in {}", c.suspects, c.known);
            }
            if let Some((words, what)) = &c.smallest {
                println!("\nsmallest difference in {entry}: {what}\n  words: {words:?}");
            }
        }
    }
}

/// Counts by name, and their sum.
fn listed<'a, N: std::fmt::Display + 'a>(counts: impl Iterator<Item = (&'a N, &'a u64)>) -> String {
    let (mut sum, mut each) = (0, Vec::new());
    for (name, count) in counts {
        sum += count;
        each.push(format!("{name}: {count}"));
    }
    if each.len() < 2 && sum == 0 { "0".to_owned() } else { format!("{sum} ({})", each.join(", ")) }
}
