//! Which refusal is right: document 01's 'Words' and 'Turned back', written apart from the library and from the
//! oracle. The Rust is silent here.
use std::ops::Range;

/// Number and place.
pub type Refusal = (u32, usize);
type Read = Result<(), Refusal>;

pub const MOST_WORDS: usize = 16_128;
const DEEPEST: u32 = 200;

/// What stands at the top.
#[derive(Copy, Clone, Debug, PartialEq, Eq)]
pub enum Sort {
    Expr,
    Rule,
}

/// The refusals of the words themselves: 5 and 7 to 10.
pub fn read(words: &[u32], sort: Sort) -> Read {
    count(words)?;
    let mut reader = Reader::new(words);
    match sort {
        Sort::Expr => reader.expr(1)?,
        Sort::Rule => reader.list(1)?,
    }
    if reader.at < words.len() { Err((10, reader.at)) } else { Ok(()) }
}

/// Refusal 5.
pub fn count(words: &[u32]) -> Read {
    if words.is_empty() || words.len() > MOST_WORDS { Err((5, words.len())) } else { Ok(()) }
}

/// The work words that pruning asks for.
pub fn work_needed(words: usize) -> usize {
    16 * words + 64
}

/// Pruning's refusals up to 10. 11 needs the answer's size.
pub fn prune(words: &[u32], work: usize) -> Read {
    count(words)?;
    let need = work_needed(words.len());
    if work < need {
        return Err((6, need));
    }
    read(words, Sort::Rule)
}

/// Where the iterables of an accepted rule's loops stand.
pub fn iterables(words: &[u32]) -> Vec<Range<usize>> {
    let mut reader = Reader::new(words);
    reader.list(1).expect("an accepted rule");
    reader.iterables
}

struct Reader<'a> {
    words: &'a [u32],
    at: usize,
    /// Of the loops read so far.
    iterables: Vec<Range<usize>>,
}

impl<'a> Reader<'a> {
    fn new(words: &'a [u32]) -> Reader<'a> {
        Reader { words, at: 0, iterables: Vec::new() }
    }

    /// The next word if it is as it must be.
    fn word(&mut self, right: impl Fn(u32) -> bool) -> Result<u32, Refusal> {
        let at = self.at;
        let word = *self.words.get(at).ok_or((8, at))?;
        if !right(word) {
            return Err((9, at));
        }
        self.at += 1;
        Ok(word)
    }

    fn any(&mut self) -> Result<u32, Refusal> {
        self.word(|_| true)
    }

    fn text(&mut self) -> Result<u32, Refusal> {
        self.word(|w| w <= 65_535)
    }

    /// Kind and detail of a node this deep.
    fn header(&mut self, depth: u32, right: impl Fn(u32, u32) -> bool) -> Result<(u32, u32), Refusal> {
        if self.at < self.words.len() && depth > DEEPEST {
            return Err((7, self.at));
        }
        let word = self.word(|w| right(w % 256, w / 256))?;
        Ok((word % 256, word / 256))
    }

    fn exprs(&mut self, count: u32, depth: u32) -> Read {
        for _ in 0..count {
            self.expr(depth)?;
        }
        Ok(())
    }

    fn expr(&mut self, depth: u32) -> Read {
        let (kind, detail) = self.header(depth, |kind, detail| match kind {
            1 => detail <= 6,
            6 | 7 | 8 | 16 => true,
            10 | 11 => detail <= 7,
            12 => detail <= 1,
            14 => detail <= 17,
            2..=5 | 9 | 13 | 15 => detail == 0,
            _ => false,
        })?;
        let parts = match kind {
            1 => {
                self.word(|w| match detail {
                    0 | 4 | 5 => w == 0,
                    1 => w <= 1,
                    3 => w <= 65_535,
                    _ => true,
                })?;
                if detail == 6 {
                    self.word(|w| w < 1 << 18)?;
                }
                0
            }
            2..=5 => {
                self.any()?;
                0
            }
            6 | 7 => detail,
            8 => 2 * detail,
            9 | 15 => 3,
            10 => 1 + detail.count_ones(),
            11 => {
                for _ in 0..[0, 0, 0, 0, 1, 2, 2, 1][detail as usize] {
                    self.text()?;
                }
                1
            }
            16 => {
                let form = self.word(|w| w < 1 << 18 && w & 0xffff <= detail)?;
                for _ in 0..form & 0xffff {
                    self.text()?;
                }
                1 + detail + (form >> 16).count_ones()
            }
            _ => 2,
        };
        self.exprs(parts, depth + 1)
    }

    fn target(&mut self, depth: u32, tuples: bool) -> Read {
        let (kind, detail) = self.header(depth, |kind, detail| match kind {
            66 => tuples,
            64..=69 => detail == 0,
            _ => false,
        })?;
        match kind {
            64 => {
                self.text()?;
                self.expr(depth + 1)
            }
            65 => self.exprs(2, depth + 1),
            66 => {
                for _ in 0..detail {
                    self.target(depth + 1, true)?;
                }
                Ok(())
            }
            69 => {
                self.any()?;
                self.text().map(|_| ())
            }
            _ => self.any().map(|_| ()),
        }
    }

    /// A list whose statements are this deep.
    fn list(&mut self, depth: u32) -> Read {
        for _ in 0..self.any()? {
            self.stmt(depth)?;
        }
        Ok(())
    }

    fn stmt(&mut self, depth: u32) -> Read {
        let (kind, _) = self.header(depth, |kind, detail| match kind {
            36 => detail <= 10,
            32..=40 => detail == 0,
            _ => false,
        })?;
        match kind {
            33 | 34 => self.expr(depth + 1),
            35 => {
                self.any()?;
                self.target(depth + 1, true)?;
                self.expr(depth + 1)
            }
            36 => {
                self.target(depth + 1, false)?;
                self.expr(depth + 1)
            }
            37 => {
                self.expr(depth + 1)?;
                self.list(depth + 1)?;
                self.list(depth + 1)
            }
            38 => {
                self.target(depth + 1, true)?;
                let from = self.at;
                self.expr(depth + 1)?;
                self.iterables.push(from..self.at);
                self.list(depth + 1)
            }
            _ => Ok(()),
        }
    }
}

/// The words of a file of blocks, or the refusal: 1 to 4.
pub fn read_blocks(file: &[u8]) -> Result<Vec<u32>, Refusal> {
    if file.is_empty() || file.len() > 65_536 || file.len() % 512 != 0 {
        return Err((1, file.len()));
    }
    let blocks: Vec<Vec<u32>> = file
        .chunks(512)
        .map(|block| block.chunks(4).map(|b| u32::from_le_bytes([b[0], b[1], b[2], b[3]])).collect())
        .collect();
    let last = blocks.len() - 1;
    for (i, block) in blocks.iter().enumerate() {
        let (number, count) = (block[0] & 0xffff, block[0] >> 16);
        let full = if i < last { count == 126 } else { (1..=126).contains(&count) };
        if number != i as u32 || !full {
            return Err((2, 512 * i));
        }
        if block[..127].iter().fold(0u32, |sum, w| sum.wrapping_add(*w)) != block[127] {
            return Err((3, 512 * i));
        }
    }
    let used = (blocks[last][0] >> 16) as usize;
    if blocks[last][1 + used..127].iter().any(|w| *w != 0) {
        return Err((4, 512 * last));
    }
    let mut words: Vec<u32> = blocks.iter().flat_map(|block| block[1..127].to_vec()).collect();
    words.truncate(126 * last + used);
    Ok(words)
}

/// What is known of a last block that is to have this number, from the words that were handed over: nothing before the
/// 128th, then its count of rule words, or the refusal: 2 to 4.
pub fn last_block(number: u16, words: &[u32]) -> Result<Option<usize>, Refusal> {
    let Some(block) = words.get(..128) else {
        return Ok(None);
    };
    let place = 512 * number as usize;
    let used = (block[0] >> 16) as usize;
    if block[0] & 0xffff != number as u32 || used < 1 || used > 126 {
        return Err((2, place));
    }
    if block[..127].iter().fold(0u32, |sum, w| sum.wrapping_add(*w)) != block[127] {
        return Err((3, place));
    }
    if block[1 + used..127].iter().any(|w| *w != 0) {
        return Err((4, place));
    }
    Ok(Some(used))
}

/// The file of these words, which are neither too many nor too few.
pub fn write_blocks(words: &[u32]) -> Vec<u8> {
    let mut file = Vec::new();
    for (i, part) in words.chunks(126).enumerate() {
        let mut block = vec![i as u32 | (part.len() as u32) << 16];
        block.extend_from_slice(part);
        block.resize(127, 0);
        block.push(block.iter().fold(0u32, |sum, w| sum.wrapping_add(*w)));
        file.extend(block.iter().flat_map(|w| w.to_le_bytes()));
    }
    file
}
