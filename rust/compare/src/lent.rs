//! Tables to lend, each among other words, and what becomes of them.

use crate::Planted;
use scenes::Rng;
use std::hint::black_box;

/// Words before and behind each lent table.
const AROUND: usize = 3;

/// Tables of these many words, all filled by a pattern.
#[derive(Clone)]
pub struct Lent<const TABLES: usize> {
    words: [Vec<u32>; TABLES],
}

impl<const TABLES: usize> Lent<TABLES> {
    pub fn new(sizes: [usize; TABLES]) -> Self {
        let fill = |table| (0..sizes[table] + 2 * AROUND).map(move |at| pattern(table, at));
        Lent {
            words: std::array::from_fn(|table| fill(table).collect()),
        }
    }

    /// Tables of these words, to be read.
    pub fn holding(tables: &[&[u32]; TABLES]) -> Self {
        let mut lent = Lent::new(tables.map(<[u32]>::len));
        for (own, table) in lent.tables().into_iter().zip(tables) {
            own.copy_from_slice(table);
        }
        lent
    }

    pub fn held(&self) -> [&[u32]; TABLES] {
        let part = |words: &'_ Vec<u32>| AROUND..words.len() - AROUND;
        self.words.each_ref().map(|words| &words[part(words)])
    }

    /// Whether the tables still hold these words, and those around them are as they were.
    pub fn holds(&self, tables: &[&[u32]; TABLES]) -> bool {
        black_box(&self.words) == &Lent::holding(tables).words
    }

    pub fn tables(&mut self) -> [&mut [u32]; TABLES] {
        self.words.each_mut().map(|words| {
            let end = words.len() - AROUND;
            &mut words[AROUND..end]
        })
    }

    /// How many words there are, those around the tables too.
    pub fn len(&self) -> usize {
        self.words.iter().map(Vec::len).sum()
    }

    /// Puts a fault into each table, of whose words so many are rows.
    pub fn plant(&mut self, planted: Planted, rows: [usize; TABLES]) {
        for (words, rows) in self.words.iter_mut().zip(rows) {
            let end = words.len() - AROUND;
            match planted {
                Planted::Written if rows > 0 => words[AROUND + rows - 1] ^= 1,
                Planted::Before => words[AROUND - 1] ^= 1,
                Planted::Behind => words[end] ^= 1,
                _ => {}
            }
        }
    }

    /// What is wrong with these tables beside those of the reference, when each
    /// may have changed in its rows alone: so many words from its first on.
    pub fn wrong(&self, reference: &Self, rows: [usize; TABLES]) -> Option<String> {
        (0..TABLES).find_map(|table| {
            let (own, other) = (&self.words[table], &reference.words[table]);
            if let Some(at) = (0..own.len()).find(|&at| own[at] != other[at]) {
                let (own, other) = (own[at], other[at]);
                let at = at as isize - AROUND as isize;
                let word = format!("word {at} of table {}", table + 1);
                return Some(format!("{word}: proved {own:#x}, reference {other:#x}"));
            }
            let behind = AROUND + rows[table]..own.len();
            let kept = |at: usize| own[at] == pattern(table, at);
            match (0..AROUND).chain(behind).all(kept) {
                true => None,
                false => Some(format!("table {} outside its rows", table + 1)),
            }
        })
    }
}

/// The word that stands there before a call.
fn pattern(table: usize, at: usize) -> u32 {
    (at as u32 * 10 + table as u32).wrapping_mul(0x9E37_79B1) ^ 0xA5C3_0F1E
}

/// Words of the rows of each table.
pub fn row_words<const TABLES: usize>(
    counts: &[u32; TABLES],
    widths: &[usize; TABLES],
) -> [usize; TABLES] {
    std::array::from_fn(|table| counts[table] as usize * widths[table])
}

/// Sizes of the tables to lend for a file that is refused without tables: some.
pub fn some_sizes<const TABLES: usize>(rng: &mut Rng) -> [usize; TABLES] {
    [(); TABLES].map(|()| rng.below(50))
}

/// The same for a file with rows of these many words: just enough; more; one word
/// short in one table, in each where that is quick; short in several; none at
/// all.
pub fn sizes_around<const TABLES: usize>(
    full: [usize; TABLES],
    rng: &mut Rng,
) -> Vec<[usize; TABLES]> {
    let more = full.map(|size| size + rng.below(50));
    let mut filled: Vec<usize> = (0..TABLES).filter(|&table| full[table] > 0).collect();
    let several = full.map(|size| match rng.percent(40) && size > 0 {
        true => rng.below(size),
        false => size,
    });
    if full.iter().sum::<usize>() > 2000 && !filled.is_empty() {
        filled = vec![rng.pick(&filled)];
    }
    let mut all = vec![full, more, several, [0; TABLES]];
    for table in filled {
        let mut short = more;
        short[table] = full[table] - 1;
        all.push(short);
    }
    all
}
