//! Random words: valid expressions and rules of every size, biased to what the pass works on.

/// A generator of numbers with a seed (splitmix64).
#[derive(Clone)]
pub struct Numbers(u64);

impl Numbers {
    pub fn new(seed: u64) -> Numbers {
        Numbers(seed)
    }
    pub fn next(&mut self) -> u64 {
        self.0 = self.0.wrapping_add(0x9e37_79b9_7f4a_7c15);
        let mut x = self.0;
        x = (x ^ x >> 30).wrapping_mul(0xbf58_476d_1ce4_e5b9);
        x = (x ^ x >> 27).wrapping_mul(0x94d0_49bb_1331_11eb);
        x ^ x >> 31
    }
    /// Below a bound that is not 0.
    pub fn below(&mut self, bound: u32) -> u32 {
        ((self.next() >> 32) * bound as u64 >> 32) as u32
    }
    /// Once in so many times.
    pub fn one_in(&mut self, times: u32) -> bool {
        self.below(times) == 0
    }
    pub fn pick<T: Copy>(&mut self, from: &[T]) -> T {
        from[self.below(from.len() as u32) as usize]
    }
    /// A size from 1 to `most`, small ones being as common as large ones.
    pub fn size(&mut self, most: u32) -> u32 {
        let bits = 32 - most.leading_zeros();
        let bound = 8 << self.below(bits.max(4) - 2);
        1 + self.below(bound.min(most))
    }
}

/// What an expression is made of.
#[derive(Copy, Clone, Debug, PartialEq, Eq)]
pub enum Taste {
    /// All kinds.
    Mixed,
    /// Not, And, Or, If, Seq, TypeIs, type calls, lists and empties, over constants, locals and calls.
    Logic,
    /// The same with no other constants than bools: what is left of a rule is large.
    Locals,
    /// The same over constants and empties alone: all of it is pure.
    Pure,
    /// Chains: one part gets nearly all of the budget.
    Deep,
}

pub const TASTES: [Taste; 5] = [Taste::Mixed, Taste::Logic, Taste::Locals, Taste::Pure, Taste::Deep];

const DEEPEST: u32 = 200;

pub struct Maker {
    pub numbers: Numbers,
    pub words: Vec<u32>,
    taste: Taste,
    /// No captured local, module or def, and no slot above 2.
    pub tame: bool,
}

fn head(kind: u32, detail: u32) -> u32 {
    kind | detail << 8
}

impl Maker {
    pub fn new(numbers: Numbers, taste: Taste) -> Maker {
        Maker { numbers, words: Vec::new(), taste, tame: false }
    }

    fn put(&mut self, words: &[u32]) {
        self.words.extend_from_slice(words);
    }

    fn below(&mut self, bound: u32) -> u32 {
        self.numbers.below(bound)
    }

    fn text(&mut self) -> u32 {
        if self.numbers.one_in(20) { self.below(65_536) } else { self.below(10) }
    }

    fn slot(&mut self) -> u32 {
        if !self.tame && self.numbers.one_in(30) { self.numbers.next() as u32 } else { self.below(3) }
    }

    /// A budget in as many parts, each at least 1 where it can be.
    fn split(&mut self, budget: u32, parts: u32) -> Vec<u32> {
        let mut left = budget.saturating_sub(parts);
        let mut all = vec![1; parts as usize];
        if parts == 0 {
            return all;
        }
        if self.taste == Taste::Deep {
            let one = self.below(parts) as usize;
            all[one] += left;
            return all;
        }
        for part in 0..parts as usize - 1 {
            let some = self.below(left + 1);
            all[part] += some;
            left -= some;
        }
        all[parts as usize - 1] += left;
        // The large parts anywhere.
        for i in (1..all.len()).rev() {
            let j = self.below(i as u32 + 1) as usize;
            all.swap(i, j);
        }
        all
    }

    /// How many parts a list of so many nodes has: seldom none.
    fn count(&mut self, budget: u32, most: u32) -> u32 {
        if budget == 0 || self.numbers.one_in(8 + budget) { 0 } else { 1 + self.below(most.min(budget)) }
    }

    fn parts(&mut self, budget: u32, parts: u32, depth: u32) {
        for part in self.split(budget, parts) {
            self.expr(part, depth + 1);
        }
    }

    fn constant(&mut self) {
        let class = self.below(8);
        match class {
            0 => self.put(&[head(1, 0), 0]),
            2 => {
                let n = self.numbers.pick(&[0, 1, 2, u32::MAX, 1 << 31, 7]);
                self.put(&[head(1, 2), n]);
            }
            3 => {
                let t = self.text();
                self.put(&[head(1, 3), t]);
            }
            4 => self.put(&[head(1, 4), 0]),
            5 => self.put(&[head(1, 5), 0]),
            6 => {
                let (n, t, bits) = (self.slot(), self.text(), self.below(4));
                self.put(&[head(1, 6), n, t | bits << 16]);
            }
            _ => {
                let b = self.below(2);
                self.put(&[head(1, 1), b]);
            }
        }
    }

    fn local(&mut self) {
        let slot = self.slot();
        self.put(&[2, slot]);
    }

    fn leaf(&mut self, depth: u32) {
        let kind = match self.taste {
            Taste::Locals => self.numbers.pick(&[0, 1, 1, 1, 2, 2, 3]),
            Taste::Pure => self.numbers.pick(&[0, 3, 5]),
            _ => self.below(10),
        };
        match kind {
            0 => {
                let b = self.below(2);
                self.put(&[head(1, 1), b]);
            }
            1 => self.local(),
            2 if depth < DEEPEST => {
                // A call without arguments.
                self.put(&[16, 0]);
                self.local();
            }
            3 => {
                let empty = 6 + self.below(3);
                self.put(&[empty]);
            }
            4 if !self.tame => {
                let (kind, n) = (3 + self.below(3), self.slot());
                self.put(&[kind, n]);
            }
            5..=8 => self.constant(),
            _ => self.local(),
        }
    }

    /// An expression of about so many nodes whose root is this deep.
    pub fn expr(&mut self, budget: u32, depth: u32) {
        if budget <= 1 || depth >= DEEPEST {
            return self.leaf(depth);
        }
        let logic = match self.taste {
            Taste::Mixed => self.numbers.one_in(3),
            Taste::Logic | Taste::Locals => !self.numbers.one_in(12),
            Taste::Pure => true,
            Taste::Deep => !self.numbers.one_in(5),
        };
        let rest = budget - 1;
        if logic {
            match self.below(13) {
                0 | 1 => {
                    self.put(&[head(11, 3)]);
                    self.parts(rest, 1, depth);
                }
                2..=4 => {
                    let op = self.below(2);
                    self.put(&[head(12, op)]);
                    self.parts(rest, 2, depth);
                }
                5 | 6 => {
                    self.put(&[13]);
                    self.parts(rest, 2, depth);
                }
                7 | 8 => {
                    self.put(&[9]);
                    self.parts(rest, 3, depth);
                }
                9 => {
                    let t = self.text();
                    self.put(&[head(11, 4), t]);
                    self.parts(rest, 1, depth);
                }
                10 => {
                    self.put(&[head(16, 1), 0, head(1, 4), 0]);
                    self.parts(rest, 1, depth);
                }
                _ => {
                    let (kind, count) = (6 + self.below(2), self.count(rest, 4));
                    self.put(&[head(kind, count)]);
                    self.parts(rest, count, depth);
                }
            }
            return;
        }
        match self.below(9) {
            0 => {
                let count = self.count(rest / 2, 3);
                self.put(&[head(8, count)]);
                self.parts(rest, 2 * count, depth);
            }
            1 => {
                let most = if self.numbers.one_in(10) { 100 } else { 5 };
                let (kind, count) = (6 + self.below(2), self.count(rest, most));
                self.put(&[head(kind, count)]);
                self.parts(rest, count, depth);
            }
            2 => {
                let bounds = self.below(8);
                self.put(&[head(10, bounds)]);
                self.parts(rest, 1 + bounds.count_ones(), depth);
            }
            3 => {
                let op = self.below(8);
                self.put(&[head(11, op)]);
                for _ in 0..[0, 0, 0, 0, 1, 2, 2, 1][op as usize] {
                    let t = self.text();
                    self.put(&[t]);
                }
                self.parts(rest, 1, depth);
            }
            4 | 5 => {
                let op = self.below(18);
                self.put(&[head(14, op)]);
                self.parts(rest, 2, depth);
            }
            6 => {
                self.put(&[15]);
                self.parts(rest, 3, depth);
            }
            _ => self.call(rest, depth),
        }
    }

    fn call(&mut self, rest: u32, depth: u32) {
        let count = self.below(rest.min(4) + 1);
        let names = if self.numbers.one_in(3) { self.below(count + 1) } else { 0 };
        let stars = if self.numbers.one_in(4) { self.below(4) } else { 0 };
        self.put(&[head(16, count), names | stars << 16]);
        for _ in 0..names {
            let t = self.text();
            self.put(&[t]);
        }
        self.parts(rest, 1 + count + stars.count_ones(), depth);
    }

    fn target(&mut self, budget: u32, depth: u32, tuples: bool) {
        let slot = self.slot();
        if depth >= DEEPEST {
            return self.put(&[67, slot]);
        }
        match self.below(8) {
            0 => {
                let t = self.text();
                self.put(&[64, t]);
                self.parts(budget, 1, depth);
            }
            1 => {
                self.put(&[65]);
                self.parts(budget, 2, depth);
            }
            2 if tuples => {
                let count = self.below(4);
                self.put(&[head(66, count)]);
                for part in self.split(budget, count) {
                    self.target(part, depth + 1, true);
                }
            }
            3 => self.put(&[68, slot]),
            4 => {
                let t = self.text();
                self.put(&[69, slot, t]);
            }
            _ => self.put(&[67, slot]),
        }
    }

    /// A list of statements that are this deep, of about so many nodes.
    pub fn list(&mut self, budget: u32, depth: u32) {
        if depth > DEEPEST - 2 || budget == 0 {
            return self.put(&[0]);
        }
        let most = if self.numbers.one_in(10) { 40 } else { 4 };
        let count = if self.taste == Taste::Deep { 1 } else { self.count(budget, most) };
        self.put(&[count]);
        for part in self.split(budget, count) {
            self.stmt(part, depth);
        }
    }

    fn stmt(&mut self, budget: u32, depth: u32) {
        let rest = budget.saturating_sub(1);
        // Statements without parts for small budgets only.
        let kind = if rest < 4 { self.below(20) } else { 1 + self.below(17) };
        match kind {
            0 => self.put(&[32]),
            1 | 2 => {
                self.put(&[33]);
                self.expr(rest, depth + 1);
            }
            3..=8 => {
                self.put(&[34]);
                self.expr(rest, depth + 1);
            }
            9 => {
                let ty = self.slot();
                self.put(&[35, ty]);
                let parts = self.split(rest, 2);
                self.target(parts[0], depth + 1, true);
                self.expr(parts[1], depth + 1);
            }
            10 => {
                let op = self.below(11);
                self.put(&[head(36, op)]);
                let parts = self.split(rest, 2);
                self.target(parts[0], depth + 1, false);
                self.expr(parts[1], depth + 1);
            }
            11..=15 => {
                self.put(&[37]);
                let parts = self.split(rest, 3);
                self.expr(parts[0], depth + 1);
                // Empty arms are common.
                for part in [parts[1], parts[2]] {
                    let part = if self.numbers.one_in(4) { 0 } else { part };
                    self.list(part, depth + 1);
                }
            }
            16 | 17 => {
                self.put(&[38]);
                let parts = self.split(rest, 3);
                self.target(parts[0], depth + 1, true);
                self.expr(parts[1], depth + 1);
                self.list(parts[2], depth + 1);
            }
            18 => self.put(&[39]),
            _ => self.put(&[40]),
        }
    }
}

/// A random expression of at most about so many nodes.
pub fn expr(seed: u64, most: u32) -> Vec<u32> {
    let mut numbers = Numbers::new(seed);
    let (taste, size) = (numbers.pick(&TASTES), numbers.size(most));
    let mut maker = Maker::new(numbers, taste);
    maker.expr(size, 1);
    maker.words
}

/// A random rule of at most about so many nodes.
pub fn rule(seed: u64, most: u32) -> Vec<u32> {
    let mut numbers = Numbers::new(seed);
    let (taste, size) = (numbers.pick(&TASTES), numbers.size(most));
    let mut maker = Maker::new(numbers, taste);
    maker.list(size, 1);
    maker.words
}

/// Words after one to three changes: a word made another, taken out or put in, or the words cut or made longer.
pub fn damage(words: &mut Vec<u32>, numbers: &mut Numbers) {
    let changes = numbers.pick(&[1, 1, 2, 3]);
    for _ in 0..changes {
        let length = words.len() as u32;
        let new = match numbers.below(4) {
            0 => numbers.below(70),
            1 => head(numbers.below(70), numbers.below(20)),
            2 => numbers.next() as u32,
            _ => 1 << numbers.below(32),
        };
        if length == 0 {
            words.push(new);
            continue;
        }
        let at = numbers.below(length) as usize;
        match numbers.below(8) {
            0..=2 => words[at] = new,
            3 => words[at] ^= 1 << numbers.below(32),
            4 => words.truncate(at),
            5 => words.push(new),
            6 => drop(words.remove(at)),
            _ => words.insert(at, new),
        }
    }
}
