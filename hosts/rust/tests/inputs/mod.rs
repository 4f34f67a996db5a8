//! Seeded inputs: good collections, repeat-free ones, and every kind of damage.
#![allow(dead_code)]

use crate::plain;
use std::collections::HashSet;

/// xorshift64*: small, and the same on every machine.
pub struct Random(u64);

impl Random {
    pub fn new(seed: u64) -> Self {
        Random(seed.wrapping_mul(0x9E37_79B9_7F4A_7C15) | 1)
    }

    pub fn next(&mut self) -> u64 {
        self.0 ^= self.0 >> 12;
        self.0 ^= self.0 << 25;
        self.0 ^= self.0 >> 27;
        self.0.wrapping_mul(0x2545_F491_4F6C_DD1D)
    }

    pub fn below(&mut self, n: usize) -> usize {
        (((self.next() >> 32) * n as u64) >> 32) as usize
    }

    pub fn between(&mut self, low: usize, high: usize) -> usize {
        low + self.below(high - low + 1)
    }

    pub fn pick<T: Copy>(&mut self, from: &[T]) -> T {
        from[self.below(from.len())]
    }

    /// True in so many of 100 cases.
    pub fn chance(&mut self, of_100: usize) -> bool {
        self.below(100) < of_100
    }

    pub fn letters(&mut self, length: usize) -> Vec<u8> {
        (0..length).map(|_| self.pick(b"ACGT")).collect()
    }

    /// A table of so many arbitrary entries.
    pub fn junk(&mut self, length: usize) -> Vec<u32> {
        (0..length).map(|_| self.next() as u32).collect()
    }

    pub fn junk_bytes(&mut self, length: usize) -> Vec<u8> {
        (0..length).map(|_| self.next() as u8).collect()
    }

    /// A table length near the one that is needed: mostly enough, now and then one short, or nothing.
    pub fn room(&mut self, need: usize) -> usize {
        match self.below(24) {
            0 => need.saturating_sub(1),
            1 => self.below(need + 1),
            2..8 => need + self.between(1, 6),
            _ => need,
        }
    }

    /// An answer table, mostly of the needed 4 entries.
    pub fn answer(&mut self) -> Vec<u64> {
        let length = match self.below(40) {
            0 => self.below(4),
            1..4 => 4 + self.below(3),
            _ => 4,
        };
        (0..length).map(|_| self.next()).collect()
    }
}

#[derive(Clone, Debug)]
pub struct Tables {
    pub k: usize,
    pub letters: Vec<u8>,
    pub ends: Vec<u32>,
    pub weights: Vec<u32>,
}

impl Tables {
    /// Judged good but for repeats.
    pub fn good(&self) -> bool {
        plain::write(self.k, &self.letters, &self.ends, &self.weights, &mut [], &mut [0; 4]) == 1
    }

    pub fn sheet(&self) -> Vec<u8> {
        let mut sheet = vec![0; 5 + 3 * self.ends.len() + self.letters.len() + 9 * self.weights.len()];
        let mut answer = [0; 4];
        assert_eq!(plain::write(self.k, &self.letters, &self.ends, &self.weights, &mut sheet, &mut answer), 0);
        sheet.truncate(answer[0] as usize);
        sheet
    }
}

pub fn weights(r: &mut Random, n: usize) -> Vec<u32> {
    let pool: Vec<u32> = (0..r.between(1, 6))
        .map(|_| match r.below(8) {
            0 => 1,
            1 => plain::MOST_WEIGHT,
            2 => 1 + r.below(plain::MOST_WEIGHT as usize) as u32,
            _ => r.between(1, 12) as u32,
        })
        .collect();
    // Runs of all lengths: each weight stays with some chance.
    let stay = r.pick(&[0, 50, 90]);
    let mut last = pool[0];
    (0..n)
        .map(|_| {
            if !r.chance(stay) {
                last = r.pick(&pool);
            }
            last
        })
        .collect()
}

fn some_k(r: &mut Random) -> usize {
    match r.below(10) {
        0..4 => r.between(3, 5),
        4..7 => r.between(6, 12),
        7 => r.pick(&[3, 4, 30, 31]),
        _ => r.between(13, 31),
    }
}

fn some_strings(r: &mut Random) -> usize {
    match r.below(10) {
        0 => 0,
        1 => r.between(10, 60),
        _ => r.between(1, 8),
    }
}

/// A good collection that may well hold repeated words.
pub fn any(r: &mut Random) -> Tables {
    let k = some_k(r);
    let (m, extra) = (some_strings(r), r.pick(&[1, 4, 20, 60]));
    // A few letters only make many equal words and long stretches.
    let alphabet = r.pick(&[&b"ACGT"[..], b"ACGT", b"AT", b"AAAAC", b"G"]);
    let mut t = Tables { k, letters: vec![], ends: vec![], weights: vec![] };
    for _ in 0..m {
        for _ in 0..k + r.below(extra) {
            t.letters.push(r.pick(alphabet));
        }
        t.ends.push(t.letters.len() as u32);
    }
    t.weights = weights(r, t.letters.len() - m * (k - 1));
    t
}

/// A good collection without repeated words: letters are added while the new word is new.
pub fn free(r: &mut Random) -> Tables {
    let k = some_k(r);
    let (m, extra) = (some_strings(r), r.pick(&[1, 4, 20, 60]));
    let mut t = Tables { k, letters: vec![], ends: vec![], weights: vec![] };
    let mut seen = HashSet::new();
    let mut is_new = |word: &[u8]| seen.insert(word.to_vec().min(plain::turned(word)));
    for _ in 0..m {
        let mut string = r.letters(k);
        if !is_new(&string) {
            continue;
        }
        for _ in 0..r.below(extra) {
            string.push(r.pick(b"ACGT"));
            if !is_new(&string[string.len() - k..]) {
                string.pop();
                break;
            }
        }
        t.letters.extend(string);
        t.ends.push(t.letters.len() as u32);
    }
    t.weights = weights(r, t.letters.len() - t.ends.len() * (k - 1));
    t
}

/// Changes, adds, takes away or moves one entry.
pub fn spoil<T: Copy>(r: &mut Random, table: &mut Vec<T>, value: T) {
    if table.is_empty() {
        return table.push(value);
    }
    let (at, other) = (r.below(table.len()), r.below(table.len() + 1));
    match r.below(5) {
        0 => table.insert(other, value),
        1 => {
            table.remove(at);
        }
        2 => table.swap(at, other.min(at)),
        _ => table[at] = value,
    }
}

/// A number that is wrong in one way or another, near `near` or far off.
pub fn odd_number(r: &mut Random, near: u32) -> u32 {
    match r.below(8) {
        0 => 0,
        1 => u32::MAX,
        2 => near.wrapping_sub(1),
        3 => near.wrapping_add(1),
        4 => r.pick(&[16_777_215, 16_777_216, 1_048_576, 1_048_577, 1 << 31]),
        5 => r.next() as u32,
        _ => r.below(near as usize + 3) as u32,
    }
}

pub fn odd_k(r: &mut Random, near: usize) -> usize {
    r.pick(&[0, 1, 2, 3, 31, 32, 33, near.wrapping_sub(1), near.wrapping_add(1), usize::MAX, 1 << 32, (1 << 32) + 5])
}

/// One or two kinds of damage at once.
pub fn damage(r: &mut Random, t: &mut Tables) {
    for _ in 0..r.between(1, 2) {
        match r.below(8) {
            0 => t.k = odd_k(r, t.k),
            1..4 => {
                let near = if t.ends.is_empty() { 0 } else { r.pick(&t.ends) };
                let value = odd_number(r, near);
                spoil(r, &mut t.ends, value);
            }
            4 | 5 => {
                let value = r.pick(b"ACGTNacgt@BU\0\n\xff \xc1");
                spoil(r, &mut t.letters, value);
            }
            _ => {
                let value = r.pick(&[0, 1, 16_777_215, 16_777_216, u32::MAX, 1 << 31, 7]);
                spoil(r, &mut t.weights, value);
            }
        }
    }
}

/// Good, repeat-free or damaged, in equal parts.
pub fn mixed(r: &mut Random) -> Tables {
    let mut t = if r.chance(50) { any(r) } else { free(r) };
    if r.chance(33) {
        damage(r, &mut t);
    }
    t
}

/// An index as INDEX would make it, of a collection that may hold repeated words.
#[derive(Clone, Debug)]
pub struct Rows {
    pub firsts: Vec<u32>,
    pub positions: Vec<u32>,
    pub numbers: Vec<u32>,
    pub before: Vec<u32>,
}

pub fn rows(p: usize, t: &Tables) -> Rows {
    let all = plain::stretches(t.k, p, &t.letters, &t.ends);
    Rows {
        firsts: all.iter().map(|s| s.1).collect(),
        positions: all.iter().map(|s| s.2).collect(),
        numbers: all.iter().map(|s| s.3).collect(),
        before: (0..=1 << (2 * p)).map(|row| all.partition_point(|s| s.0 < row) as u32).collect(),
    }
}

/// A word of the collection, as it stands or turned, or another one.
pub fn word(r: &mut Random, t: &Tables) -> Vec<u8> {
    let mut word = r.letters(t.k);
    let n = t.letters.len();
    if r.chance(70) && n >= t.k {
        let at = r.below(n + 1 - t.k);
        word.copy_from_slice(&t.letters[at..at + t.k]);
        if r.chance(50) {
            word = plain::turned(&word);
        }
    }
    if r.chance(10) {
        // Its own reverse complement, where k is even.
        let half = word[..t.k / 2].to_vec();
        word.splice(t.k - half.len().., plain::turned(&half));
    }
    if r.chance(8) {
        let value = r.pick(b"ACGTNa\0");
        spoil(r, &mut word, value);
    }
    word
}
