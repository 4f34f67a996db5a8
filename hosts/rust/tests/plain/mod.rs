//! The specification written down plainly: every call over lent tables, in linear or n log n time, with no thought of proofs.
//!
//! The signatures are those of `corrivume::raw`, so that a test can lend the same tables to both and compare everything.
//! It shares no code with the library.
#![allow(clippy::too_many_arguments, clippy::needless_range_loop, dead_code)]

use std::collections::{HashMap, HashSet};

pub const MOST_LETTERS: usize = 1_048_576;
pub const MOST_STRINGS: usize = 65_536;
pub const MOST_WEIGHT: u32 = 16_777_215;

/// A refusal: number and place.
pub type Refused = (u32, usize);

/// Puts a call's outcome into the answer table. With too short an answer table nothing else is even looked at.
fn reply<const A: usize>(answer: &mut [u64], call: impl FnOnce() -> Result<[usize; A], Refused>) -> u32 {
    if answer.len() < 4 {
        return 1;
    }
    match call() {
        Ok(answers) => {
            for (to, from) in answer.iter_mut().zip(answers) {
                *to = from as u64;
            }
            0
        }
        Err((number, place)) => {
            answer[0] = place as u64;
            number
        }
    }
}

// ---- letters and words ----

fn code(letter: u8) -> Option<u64> {
    b"ACGT".iter().position(|&l| l == letter).map(|c| c as u64)
}

/// The reverse complement; only for good letters.
pub fn turned(word: &[u8]) -> Vec<u8> {
    word.iter()
        .rev()
        .map(|l| match l {
            b'A' => b'T',
            b'C' => b'G',
            b'G' => b'C',
            b'T' => b'A',
            _ => unreachable!(),
        })
        .collect()
}

fn good_word(k: usize, word: &[u8]) -> Result<(), Refused> {
    if word.len() == k && word.iter().all(|&l| code(l).is_some()) { Ok(()) } else { Err((9, 0)) }
}

/// For each k-mer of a good string the smaller code of the word and its reverse complement.
fn canonical(k: usize, string: &[u8]) -> impl Iterator<Item = u64> + '_ {
    let (mut word, mut back) = (0u64, 0u64);
    string.iter().enumerate().filter_map(move |(i, &l)| {
        let c = code(l).unwrap();
        word = (word << 2 | c) & ((1 << (2 * k)) - 1);
        back = back >> 2 | (3 - c) << (2 * (k - 1));
        (i + 1 >= k).then_some(word.min(back))
    })
}

/// For each k-mer of a good string its minimizer. The smallest word is looked for anew only when it leaves the k-mer.
fn minimizers(k: usize, p: usize, string: &[u8]) -> Vec<usize> {
    let mut word = 0;
    let codes: Vec<usize> = string
        .iter()
        .map(|&l| {
            word = (word << 2 | code(l).unwrap() as usize) & ((1 << (2 * p)) - 1);
            word
        })
        .skip(p - 1)
        .collect();
    let width = k - p + 1;
    let mut best = 0;
    (0..codes.len() + 1 - width)
        .map(|start| {
            let end = start + width;
            if start == 0 || best < start {
                best = (start..end).min_by_key(|&i| codes[i]).unwrap();
            } else if codes[end - 1] < codes[best] {
                best = end - 1;
            }
            codes[best]
        })
        .collect()
}

pub fn minimizer(p: usize, word: &[u8]) -> usize {
    minimizers(word.len(), p, word)[0]
}

// ---- judging ----

fn judge_k(k: usize) -> Result<(), Refused> {
    if (3..=31).contains(&k) { Ok(()) } else { Err((2, 0)) }
}

fn judge_k_p(k: usize, p: usize) -> Result<(), Refused> {
    judge_k(k)?;
    if (1..=8).contains(&p) && p <= k { Ok(()) } else { Err((2, 0)) }
}

/// 2, 3, 4; gives n.
fn judge_strings(k: usize, letters: &[u8], ends: &[u32]) -> Result<usize, Refused> {
    judge_k(k)?;
    if letters.len() > MOST_LETTERS || ends.len() > MOST_STRINGS {
        return Err((3, 0));
    }
    let mut last = 0i64;
    for (i, &end) in ends.iter().enumerate() {
        if i64::from(end) - last < k as i64 {
            return Err((4, i + 1));
        }
        last = i64::from(end);
    }
    if last != letters.len() as i64 {
        return Err((4, ends.len() + 1));
    }
    Ok(letters.len() - ends.len() * (k - 1))
}

/// 2 to 6; gives n.
fn judge(k: usize, letters: &[u8], ends: &[u32], weights: &[u32]) -> Result<usize, Refused> {
    let n = judge_strings(k, letters, ends)?;
    if let Some(i) = letters.iter().position(|&l| !matches!(l, b'A' | b'C' | b'G' | b'T')) {
        return Err((5, i + 1));
    }
    if weights.len() != n {
        return Err((6, 0));
    }
    match weights.iter().position(|&w| w == 0 || w > MOST_WEIGHT) {
        Some(i) => Err((6, i + 1)),
        None => Ok(n),
    }
}

fn room(enough: bool) -> Result<(), Refused> {
    if enough { Ok(()) } else { Err((1, 0)) }
}

/// Each string's letters and weights, as ranges.
fn strings(k: usize, ends: &[u32]) -> impl Iterator<Item = (std::ops::Range<usize>, std::ops::Range<usize>)> + '_ {
    let (mut letter, mut weight) = (0, 0);
    ends.iter().map(move |&end| {
        let (l, w) = (letter..end as usize, weight..weight + end as usize - letter + 1 - k);
        (letter, weight) = (l.end, w.end);
        (l, w)
    })
}

// ---- the sheet ----

/// A decimal without leading zeros; what passes 10 digits is only known to be large.
fn decimal(field: &[u8]) -> Option<u64> {
    let good = !field.is_empty() && field.iter().all(u8::is_ascii_digit) && (field[0] != b'0' || field.len() == 1);
    if !good {
        return None;
    }
    Some(if field.len() > 10 { u64::MAX } else { field.iter().fold(0, |n, d| 10 * n + u64::from(d - b'0')) })
}

/// The fields of a line that ends in a line feed.
fn fields(line: &[u8]) -> Option<Vec<&[u8]>> {
    Some(line.strip_suffix(b"\n")?.split(|&b| b == b'\t').collect())
}

pub fn read(sheet: &[u8], letters: &mut [u8], ends: &mut [u32], weights: &mut [u32], answer: &mut [u64]) -> u32 {
    reply(answer, || {
        let mut lines = sheet.split_inclusive(|&b| b == b'\n');
        let k = lines.next().and_then(fields).and_then(|f| match f[..] {
            [b"K", digits] if digits.len() <= 2 => decimal(digits),
            _ => None,
        });
        let k = k.ok_or((11, 1))? as usize;
        judge_k(k)?;
        let (mut all_letters, mut all_ends, mut all_weights) = (Vec::new(), Vec::new(), Vec::new());
        for (i, line) in lines.enumerate() {
            let wrong = (11, i + 2);
            let f = fields(line).ok_or(wrong)?;
            let good = f[0] == b"S"
                && f.len() >= 2
                && f[1].len() >= k
                && f[1].iter().all(|&l| code(l).is_some())
                && f.len() - 2 == f[1].len() - k + 1;
            if !good {
                return Err(wrong);
            }
            for w in &f[2..] {
                match decimal(w) {
                    Some(w @ 1..=16_777_215) => all_weights.push(w as u32),
                    _ => return Err(wrong),
                }
            }
            all_letters.extend_from_slice(f[1]);
            all_ends.push(all_letters.len() as u32);
        }
        if all_letters.len() > MOST_LETTERS || all_ends.len() > MOST_STRINGS {
            return Err((3, 0));
        }
        room(letters.len() >= all_letters.len() && ends.len() >= all_ends.len() && weights.len() >= all_weights.len())?;
        letters[..all_letters.len()].copy_from_slice(&all_letters);
        ends[..all_ends.len()].copy_from_slice(&all_ends);
        weights[..all_weights.len()].copy_from_slice(&all_weights);
        Ok([k, all_letters.len(), all_ends.len(), all_weights.len()])
    })
}

pub fn write(k: usize, letters: &[u8], ends: &[u32], weights: &[u32], sheet: &mut [u8], answer: &mut [u64]) -> u32 {
    use std::io::Write;
    reply(answer, || {
        judge(k, letters, ends, weights)?;
        let mut text = format!("K\t{k}\n").into_bytes();
        for (l, w) in strings(k, ends) {
            text.extend_from_slice(b"S\t");
            text.extend_from_slice(&letters[l]);
            for weight in &weights[w] {
                write!(text, "\t{weight}").unwrap();
            }
            text.push(b'\n');
        }
        room(sheet.len() >= text.len())?;
        sheet[..text.len()].copy_from_slice(&text);
        Ok([text.len()])
    })
}

// ---- repeats ----

/// 7, at the lowest handle whose word stood before.
fn no_repeat(k: usize, letters: &[u8], ends: &[u32]) -> Result<(), Refused> {
    let mut seen = HashSet::with_capacity(letters.len());
    let mut handle = 0;
    for (l, _) in strings(k, ends) {
        for word in canonical(k, &letters[l]) {
            handle += 1;
            if !seen.insert(word) {
                return Err((7, handle));
            }
        }
    }
    Ok(())
}

pub fn check(k: usize, letters: &[u8], ends: &[u32], weights: &[u32], work: &mut [u32], answer: &mut [u64]) -> u32 {
    reply(answer, || {
        let n = judge(k, letters, ends, weights)?;
        room(work.len() >= 4 * n)?;
        work[..4 * n].fill(0);
        no_repeat(k, letters, ends)?;
        Ok([n])
    })
}

// ---- runs and covers ----

/// The first and last weight of each string.
pub fn end_weights(k: usize, ends: &[u32], weights: &[u32]) -> Vec<(u32, u32)> {
    strings(k, ends).map(|(_, w)| (weights[w.start], weights[w.end - 1])).collect()
}

/// E + O/2, by union and find over the end weights.
pub fn least_paths(pairs: &[(u32, u32)]) -> usize {
    fn root(up: &mut [usize], mut i: usize) -> usize {
        while up[i] != i {
            up[i] = up[up[i]];
            i = up[i];
        }
        i
    }
    let mut numbers = HashMap::new();
    let (mut up, mut odd) = (Vec::new(), Vec::new());
    for &(a, b) in pairs {
        let [a, b] = [a, b].map(|w| {
            *numbers.entry(w).or_insert_with(|| {
                up.push(up.len());
                odd.push(false);
                up.len() - 1
            })
        });
        odd[a] = !odd[a];
        odd[b] = !odd[b];
        let (a, b) = (root(&mut up, a), root(&mut up, b));
        up[a] = b;
    }
    let mut even_group = vec![true; up.len()];
    for i in 0..up.len() {
        if odd[i] {
            let r = root(&mut up, i);
            even_group[r] = false;
        }
    }
    let e = (0..up.len()).filter(|&i| up[i] == i && even_group[i]).count();
    e + odd.iter().filter(|&&o| o).count() / 2
}

/// The sum of runs inside each string.
pub fn inner_runs(k: usize, ends: &[u32], weights: &[u32]) -> usize {
    strings(k, ends).map(|(_, w)| run_list(&weights[w]).len()).sum()
}

/// Strings are edges between their end weights. Odd weights get an extra edge, each group is walked once round
/// (Hierholzer), and the rounds are cut at the extra edges.
pub fn cover(
    k: usize, letters: &[u8], ends: &[u32], weights: &[u32], places: &mut [i32], work: &mut [u32], answer: &mut [u64],
) -> u32 {
    reply(answer, || {
        judge(k, letters, ends, weights)?;
        let m = ends.len();
        room(places.len() >= m && work.len() >= 16 * m)?;
        work[..16 * m].fill(0);
        let pairs = end_weights(k, ends, weights);
        let mut nodes: Vec<u32> = pairs.iter().flat_map(|&(a, b)| [a, b]).collect();
        nodes.sort_unstable();
        nodes.dedup();
        let node = |w: u32| nodes.binary_search(&w).unwrap();
        let mut edges: Vec<(usize, usize)> = pairs.iter().map(|&(a, b)| (node(a), node(b))).collect();
        let mut degree = vec![0; nodes.len()];
        edges.iter().for_each(|&(a, b)| {
            degree[a] += 1;
            degree[b] += 1
        });
        // One extra node h, joined to every odd weight, makes all weights even.
        let h = nodes.len();
        for a in 0..h {
            if degree[a] % 2 == 1 {
                edges.push((a, h));
            }
        }
        let mut near = vec![Vec::new(); h + 1];
        for (i, &(a, b)) in edges.iter().enumerate() {
            near[a].push(i);
            near[b].push(i);
        }
        let mut used = vec![false; edges.len()];
        let (mut place, mut paths) = (0, 0);
        // From h first: its rounds take in every group that has an odd weight.
        for start in std::iter::once(h).chain(0..h) {
            let mut stack = vec![(start, None)];
            let mut round = Vec::new();
            while let Some(&(at, came)) = stack.last() {
                match near[at].pop() {
                    Some(e) if used[e] => {}
                    Some(e) => {
                        used[e] = true;
                        let (a, b) = edges[e];
                        stack.push((if a == at { b } else { a }, Some((e, at))));
                    }
                    None => {
                        stack.pop();
                        // The round comes out backwards: the edge is walked from `at` to where it came from.
                        round.extend(came.map(|(e, _)| (e, at)));
                    }
                }
            }
            // A round from h begins and ends with an extra edge; between two of them lies one path.
            paths +=
                if start == h { round.iter().filter(|r| r.0 >= m).count() / 2 } else { usize::from(!round.is_empty()) };
            for (e, from) in round.into_iter().filter(|r| r.0 < m) {
                place += 1;
                places[e] = if edges[e].0 == from { place } else { -place };
            }
        }
        Ok([paths, m])
    })
}

pub fn apply(
    k: usize, letters: &[u8], ends: &[u32], weights: &[u32], places: &[i32], new_letters: &mut [u8],
    new_ends: &mut [u32], new_weights: &mut [u32], work: &mut [u32], answer: &mut [u64],
) -> u32 {
    reply(answer, || {
        let n = judge(k, letters, ends, weights)?;
        let m = ends.len();
        room(new_letters.len() >= letters.len() && new_ends.len() >= m && new_weights.len() >= n && work.len() >= m)?;
        work[..m].fill(0);
        if places.len() != m {
            return Err((8, 0));
        }
        let mut order = vec![None; m];
        for (i, &place) in places.iter().enumerate() {
            let at = place.unsigned_abs() as usize;
            if at == 0 || at > m || order[at - 1].is_some() {
                return Err((8, i + 1));
            }
            order[at - 1] = Some(i);
        }
        let all: Vec<_> = strings(k, ends).collect();
        let (mut letter, mut weight) = (0, 0);
        for (at, i) in order.into_iter().map(Option::unwrap).enumerate() {
            let (l, w) = all[i].clone();
            let (to_l, to_w) = (&mut new_letters[letter..letter + l.len()], &mut new_weights[weight..weight + w.len()]);
            letter += l.len();
            weight += w.len();
            new_ends[at] = letter as u32;
            to_w.copy_from_slice(&weights[w]);
            if places[i] < 0 {
                to_l.copy_from_slice(&turned(&letters[l]));
                to_w.reverse();
            } else {
                to_l.copy_from_slice(&letters[l]);
            }
        }
        Ok([letters.len(), m, n])
    })
}

/// Weight and first handle of each run.
pub fn run_list(weights: &[u32]) -> Vec<(u32, u32)> {
    (0..weights.len()).filter(|&i| i == 0 || weights[i - 1] != weights[i]).map(|i| (weights[i], i as u32 + 1)).collect()
}

pub fn runs(
    k: usize, letters: &[u8], ends: &[u32], weights: &[u32], run_weights: &mut [u32], run_firsts: &mut [u32],
    answer: &mut [u64],
) -> u32 {
    reply(answer, || {
        judge(k, letters, ends, weights)?;
        let list = run_list(weights);
        room(run_weights.len() >= list.len() && run_firsts.len() >= list.len())?;
        for (i, &(w, f)) in list.iter().enumerate() {
            (run_weights[i], run_firsts[i]) = (w, f);
        }
        Ok([list.len()])
    })
}

fn weight_of(run_weights: &[u32], run_firsts: &[u32], n: usize, handle: usize) -> Result<u32, Refused> {
    let good = run_weights.len() == run_firsts.len()
        && n <= MOST_LETTERS
        && (n == 0) == run_firsts.is_empty()
        && run_firsts.first().is_none_or(|&f| f == 1)
        && run_firsts.windows(2).all(|f| f[0] < f[1])
        && run_firsts.iter().all(|&f| f as usize <= n)
        && run_weights.windows(2).all(|w| w[0] != w[1])
        && run_weights.iter().all(|w| (1..=MOST_WEIGHT).contains(w));
    if !good {
        return Err((12, 0));
    }
    if handle == 0 || handle > n {
        return Err((9, 0));
    }
    Ok(run_weights[run_firsts.partition_point(|&f| f as usize <= handle) - 1])
}

pub fn weight(run_weights: &[u32], run_firsts: &[u32], n: usize, handle: usize, answer: &mut [u64]) -> u32 {
    reply(answer, || Ok([weight_of(run_weights, run_firsts, n, handle)? as usize]))
}

// ---- questions ----

pub fn access(k: usize, letters: &[u8], ends: &[u32], handle: usize, answer: &mut [u64]) -> u32 {
    reply(answer, || {
        judge_strings(k, letters, ends)?;
        for (l, w) in strings(k, ends) {
            if handle > w.start && handle <= w.end {
                return Ok([l.start + handle - 1 - w.start, k]);
            }
        }
        Err((9, 0))
    })
}

pub fn plain(k: usize, letters: &[u8], ends: &[u32], weights: &[u32], word: &[u8], answer: &mut [u64]) -> u32 {
    reply(answer, || {
        judge(k, letters, ends, weights)?;
        good_word(k, word)?;
        for (side, word) in [word.to_vec(), turned(word)].iter().enumerate() {
            let mut all = strings(k, ends).flat_map(|(l, _)| letters[l].windows(k));
            if let Some(i) = all.position(|w| w == word) {
                return Ok([i + 1, side]);
            }
        }
        Ok([0, 0])
    })
}

/// Each stretch by minimizer, then handle: minimizer, first handle, position, number.
pub fn stretches(k: usize, p: usize, letters: &[u8], ends: &[u32]) -> Vec<(usize, u32, u32, u32)> {
    let mut all: Vec<(usize, u32, u32, u32)> = Vec::new();
    for (l, w) in strings(k, ends) {
        for (i, least) in minimizers(k, p, &letters[l.clone()]).into_iter().enumerate() {
            match all.last_mut() {
                Some(s) if i > 0 && s.0 == least => s.3 += 1,
                _ => all.push((least, (w.start + i + 1) as u32, (l.start + i) as u32, 1)),
            }
        }
    }
    all.sort_unstable();
    all
}

pub fn index(
    k: usize, p: usize, letters: &[u8], ends: &[u32], weights: &[u32], firsts: &mut [u32], positions: &mut [u32],
    numbers: &mut [u32], before: &mut [u32], work: &mut [u32], answer: &mut [u64],
) -> u32 {
    reply(answer, || {
        judge_k_p(k, p)?;
        let n = judge(k, letters, ends, weights)?;
        let (all, rows) = (stretches(k, p, letters, ends), 1 << (2 * p));
        let s = all.len();
        room(
            firsts.len() >= s
                && positions.len() >= s
                && numbers.len() >= s
                && before.len() > rows
                && work.len() >= 4 * n,
        )?;
        work[..4 * n].fill(0);
        no_repeat(k, letters, ends)?;
        let mut counts = vec![0; rows];
        for (i, &(least, first, position, number)) in all.iter().enumerate() {
            counts[least] += 1;
            (firsts[i], positions[i], numbers[i]) = (first, position, number);
        }
        let mut sum = 0;
        for row in 0..rows {
            before[row] = sum;
            sum += counts[row];
        }
        before[rows] = sum;
        Ok([s, rows + 1])
    })
}

fn ask(
    k: usize, p: usize, word: &[u8], letters: &[u8], firsts: &[u32], positions: &[u32], numbers: &[u32], before: &[u32],
) -> Result<[usize; 3], Refused> {
    judge_k_p(k, p)?;
    if letters.len() > MOST_LETTERS {
        return Err((3, 0));
    }
    good_word(k, word)?;
    let unfit = Err((10, 0));
    let s = firsts.len();
    if before.len() != (1 << (2 * p)) + 1 || positions.len() != s || numbers.len() != s || s > MOST_LETTERS {
        return unfit;
    }
    let words = [word.to_vec(), turned(word)];
    let rows = [0, 1].map(|side| {
        let least = minimizer(p, &words[side]);
        (before[least] as usize, before[least + 1] as usize)
    });
    for (start, end) in rows {
        if start > end || end > s {
            return unfit;
        }
        for i in start..end {
            let (first, position, number) = (firsts[i] as usize, positions[i] as usize, numbers[i] as usize);
            if first == 0
                || number == 0
                || first + number - 1 > MOST_LETTERS
                || position + number + k - 1 > letters.len()
            {
                return unfit;
            }
        }
    }
    let mut compared = 0;
    for (side, (start, end)) in rows.into_iter().enumerate() {
        for i in start..end {
            for j in 0..numbers[i] as usize {
                let at = positions[i] as usize + j;
                compared += 1;
                if letters[at..at + k] == words[side] {
                    return Ok([firsts[i] as usize + j, side, compared]);
                }
            }
        }
    }
    Ok([0, 0, compared])
}

pub fn quick(
    k: usize, p: usize, word: &[u8], letters: &[u8], firsts: &[u32], positions: &[u32], numbers: &[u32],
    before: &[u32], answer: &mut [u64],
) -> u32 {
    reply(answer, || ask(k, p, word, letters, firsts, positions, numbers, before))
}

pub fn weigh(
    k: usize, p: usize, word: &[u8], letters: &[u8], firsts: &[u32], positions: &[u32], numbers: &[u32],
    before: &[u32], run_weights: &[u32], run_firsts: &[u32], n: usize, answer: &mut [u64],
) -> u32 {
    reply(answer, || match ask(k, p, word, letters, firsts, positions, numbers, before)? {
        [0, ..] => Ok([0, 0]),
        [handle, ..] => Ok([1, weight_of(run_weights, run_firsts, n, handle)? as usize]),
    })
}
