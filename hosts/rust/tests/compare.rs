//! Every call beside the plain implementation: number, place, answers, and every lent table whole.
mod inputs;
mod plain;

use corrivume::raw;
use inputs::{Random, Tables};
use std::collections::BTreeMap;

/// So many entries stand before and after each lent table, to see that they stay too.
const MARGIN: usize = 4;

fn framed<T: Copy + From<u8>>(table: &[T]) -> Vec<T> {
    let margin = [T::from(0x5a); MARGIN];
    [&margin[..], table, &margin[..]].concat()
}

fn lent<T>(framed: &mut [T]) -> &mut [T] {
    let end = framed.len() - MARGIN;
    &mut framed[MARGIN..end]
}

/// Lends the same tables to the library and to the plain implementation, and compares everything afterwards.
macro_rules! both {
    ($seen:ident, $call:ident, ($($input:expr),*), ($($table:ident),*)) => {{
        $(let mut $table = (framed(&$table), framed(&$table), $table);)*
        let library = raw::$call($($input,)* $(lent(&mut $table.0)),*);
        let plain = plain::$call($($input,)* $(lent(&mut $table.1)),*);
        let same = library == plain $(&& $table.0 == $table.1)*;
        if !same {
            let all = format!("{:?}\nlibrary, plain, lent: {:?}", ($(&$input,)*), ($(&$table,)*));
            panic!("{}: library {library}, plain {plain}\n{:.6000}", stringify!($call), all);
        }
        *$seen.0.entry(library).or_default() += 1;
        library
    }};
}

/// How often each number came out. A test that never saw a refusal it is there for has not tested it.
#[derive(Default)]
struct Seen(BTreeMap<u32, usize>);

impl Seen {
    fn expect(&self, call: &str, numbers: &[u32]) {
        println!("{call}: {} cases, by number {:?}", self.0.values().sum::<usize>(), self.0);
        for n in numbers {
            assert!(self.0.contains_key(n), "{call}: no case gave {n}");
        }
        assert!(self.0.keys().all(|n| numbers.contains(n)), "{call}: a number it cannot give");
    }
}

/// How many seeded inputs a call gets; the variable CORRIVUME_CASES asks for another number.
fn cases() -> u64 {
    std::env::var("CORRIVUME_CASES").map_or(40_000, |n| n.parse().expect("CORRIVUME_CASES is a number"))
}

fn sheet(r: &mut Random) -> Vec<u8> {
    let mut sheet = if r.chance(50) { inputs::any(r) } else { inputs::free(r) }.sheet();
    for _ in 0..r.below(3) {
        match r.below(8) {
            // One byte.
            0..3 => {
                let value = r.pick(b"KS\t\n\rACGTNa0123456789 -+\0\xff");
                inputs::spoil(r, &mut sheet, value);
            }
            // One number, for one of every kind.
            3 | 4 => {
                let fields: Vec<&[u8]> = sheet.split(|&b| b == b'\t').collect();
                let number = r.pick(&[
                    "0",
                    "1",
                    "01",
                    "00",
                    "16777215",
                    "16777216",
                    "016777215",
                    "4294967297",
                    "18446744073709551617",
                    "18446744073709551616",
                    "99999999999999999999",
                    "",
                    "1 ",
                    "+1",
                    "1a",
                    "9",
                    "340282366920938463463374607431768211457",
                ]);
                let at = r.below(fields.len());
                let ending: &[u8] = if fields[at].contains(&b'\n') { b"\nS" } else { b"" };
                let mut new: Vec<Vec<u8>> = fields.iter().map(|f| f.to_vec()).collect();
                new[at] = [number.as_bytes(), ending].concat();
                sheet = new.join(&b'\t');
            }
            // The first line.
            5 => {
                let end = sheet.iter().position(|&b| b == b'\n').map_or(sheet.len(), |i| i + 1);
                let line = r.pick(&[
                    "K\t0\n", "K\t00\n", "K\t03\n", "K\t1\n", "K\t2\n", "K\t3\n", "K\t31\n", "K\t32\n", "K\t99\n",
                    "K\t100\n", "K\t007\n", "K3\n", "K 3\n", "K\t\n", "K\n", "\n", "", "K\t3", "K\t3\t\n", "K\t3\r\n",
                    "k\t3\n", "K\t 3\n", "K\t-3\n", "S\t3\n", "KK\t3\n",
                ]);
                sheet.splice(..end, line.bytes());
            }
            // A cut, or something after the end.
            6 => {
                let at = r.below(sheet.len() + 1);
                sheet.truncate(at);
            }
            _ => {
                let tail = r.pick(&[
                    "\n",
                    "S",
                    "S\n",
                    "S\t\n",
                    "S\tACG\n",
                    "S\tACG\t\n",
                    "S\tACG\t1",
                    "S\tACG\t1\n",
                    "S\tAC\t1\n",
                    "x\n",
                ]);
                sheet.extend(tail.bytes());
            }
        }
    }
    sheet
}

#[test]
fn read() {
    let mut seen = Seen::default();
    for seed in 0..3 * cases() {
        let r = &mut Random::new(seed);
        let sheet = sheet(r);
        let lines = sheet.iter().filter(|&&b| b == b'\n').count().saturating_sub(1);
        let counted = sheet.iter().filter(|b| b"ACGT".contains(b)).count();
        let numbers = sheet.iter().filter(|&&b| b == b'\t').count().saturating_sub(1 + lines);
        let (letters, ends, weights) = (r.room(counted), r.room(lines), r.room(numbers));
        let (letters, ends, weights, answer) = (r.junk_bytes(letters), r.junk(ends), r.junk(weights), r.answer());
        both!(seen, read, (&sheet), (letters, ends, weights, answer));
    }
    seen.expect("READ", &[0, 1, 2, 11]);
}

#[test]
fn write() {
    let mut seen = Seen::default();
    for seed in 0..cases() {
        let r = &mut Random::new(seed);
        let t = inputs::mixed(r);
        let need = if t.good() { t.sheet().len() } else { 99 };
        let (sheet, answer) = (r.room(need), r.answer());
        let sheet = r.junk_bytes(sheet);
        both!(seen, write, (t.k, &t.letters, &t.ends, &t.weights), (sheet, answer));
    }
    seen.expect("WRITE", &[0, 1, 2, 4, 5, 6]);
}

#[test]
fn check() {
    let mut seen = Seen::default();
    for seed in 0..cases() {
        let r = &mut Random::new(seed);
        let t = inputs::mixed(r);
        let (work, answer) = (r.room(4 * t.weights.len()), r.answer());
        let work = r.junk(work);
        both!(seen, check, (t.k, &t.letters, &t.ends, &t.weights), (work, answer));
    }
    seen.expect("CHECK", &[0, 1, 2, 4, 5, 6, 7]);
}

/// COVER's places are not determined, all else is: the number of paths, that every place is used once, and the runs.
fn cover_one(r: &mut Random, t: &Tables, seen: &mut Seen) {
    let m = t.ends.len();
    // Large ones are rare: they always get their room.
    let (places, work, answer) =
        if m < 1000 { (r.room(m), r.room(16 * m), r.answer()) } else { (m + 2, 16 * m + 2, vec![7; 4]) };
    let places: Vec<i32> = r.junk(places).into_iter().map(|p| p as i32).collect();
    let work = r.junk(work);
    let [mut of_library, mut of_plain] = [0, 1].map(|_| (framed(&places), framed(&work), framed(&answer)));
    let before = of_library.0.clone();
    let (q, w, a) = (lent(&mut of_library.0), lent(&mut of_library.1), lent(&mut of_library.2));
    let number = raw::cover(t.k, &t.letters, &t.ends, &t.weights, q, w, a);
    let (q, w, a) = (lent(&mut of_plain.0), lent(&mut of_plain.1), lent(&mut of_plain.2));
    let plain_number = plain::cover(t.k, &t.letters, &t.ends, &t.weights, q, w, a);
    *seen.0.entry(number).or_default() += 1;
    let same = number == plain_number && of_library.1 == of_plain.1 && of_library.2 == of_plain.2;
    assert!(same, "COVER: library {number} {of_library:?}, plain {plain_number} {of_plain:?}, {t:?}");
    if number != 0 {
        assert_eq!(of_library.0, before, "{t:?}");
        return;
    }
    assert_eq!(of_library.0[..MARGIN], before[..MARGIN]);
    assert_eq!(of_library.0[MARGIN + m..], before[MARGIN + m..]);
    let least = plain::least_paths(&plain::end_weights(t.k, &t.ends, &t.weights));
    assert_eq!(lent(&mut of_library.2)[..2], [least as u64, m as u64], "{t:?}");
    // The plain order is held to the same, so that it is fair to time it.
    for places in [&of_library.0[MARGIN..][..m], &of_plain.0[MARGIN..][..m]] {
        let (mut letters, mut ends, mut weights) = (vec![0; t.letters.len()], vec![0; m], vec![0; t.weights.len()]);
        let mut out = [0; 4];
        // 0 says that they are a signed permutation.
        let applied = plain::apply(
            t.k,
            &t.letters,
            &t.ends,
            &t.weights,
            places,
            &mut letters,
            &mut ends,
            &mut weights,
            &mut vec![0; m],
            &mut out,
        );
        assert_eq!(applied, 0, "{t:?} {places:?}");
        let inner = plain::inner_runs(t.k, &t.ends, &t.weights);
        assert_eq!(plain::run_list(&weights).len(), inner - m + least, "{t:?} {places:?}");
        let joins = plain::end_weights(t.k, &ends, &weights).windows(2).filter(|s| s[0].1 == s[1].0).count();
        assert_eq!(m - joins, least, "{t:?} {places:?}");
    }
}

#[test]
fn cover() {
    let mut seen = Seen::default();
    for seed in 0..cases() {
        let r = &mut Random::new(seed);
        let t = inputs::mixed(r);
        cover_one(r, &t, &mut seen);
    }
    // Many strings of one or two k-mers, over few or many end weights.
    for seed in 0..4_000 {
        let r = &mut Random::new(seed);
        let (m, kinds) = (r.between(1, 300), r.pick(&[1, 2, 3, 10, 100, 1000]));
        let t = pairs(r, m, |r, _| (1 + r.below(kinds) as u32, 1 + r.below(kinds) as u32));
        cover_one(r, &t, &mut seen);
    }
    seen.expect("COVER", &[0, 1, 2, 4, 5, 6]);
}

/// Strings of two k-mers with the given end weights, now and then of one where the two are equal.
fn pairs(r: &mut Random, m: usize, mut ends: impl FnMut(&mut Random, usize) -> (u32, u32)) -> Tables {
    let mut t = Tables { k: 3, letters: vec![], ends: vec![], weights: vec![] };
    for i in 0..m {
        let (a, b) = ends(r, i);
        let one = a == b && r.chance(50);
        t.letters.extend(r.letters(if one { 3 } else { 4 }));
        t.ends.push(t.letters.len() as u32);
        t.weights.extend(if one { vec![a] } else { vec![a, b] });
    }
    t
}

#[test]
fn apply() {
    let mut seen = Seen::default();
    for seed in 0..cases() {
        let r = &mut Random::new(seed);
        let t = inputs::mixed(r);
        let m = t.ends.len();
        let mut places: Vec<i32> = (1..=m as i32).map(|p| if r.chance(50) { p } else { -p }).collect();
        for i in (1..m).rev() {
            places.swap(i, r.below(i + 1));
        }
        if r.chance(30) {
            let near = m as i32;
            let value = r.pick(&[0, 1, -1, near, -near, near + 1, -near - 1, i32::MAX, i32::MIN, i32::MIN + 1]);
            inputs::spoil(r, &mut places, value);
        }
        let (letters, ends, weights, work) = (r.room(t.letters.len()), r.room(m), r.room(t.weights.len()), r.room(m));
        let (letters, ends, weights, work) = (r.junk_bytes(letters), r.junk(ends), r.junk(weights), r.junk(work));
        let answer = r.answer();
        both!(seen, apply, (t.k, &t.letters, &t.ends, &t.weights, &places), (letters, ends, weights, work, answer));
    }
    seen.expect("APPLY", &[0, 1, 2, 4, 5, 6, 8]);
}

#[test]
fn runs() {
    let mut seen = Seen::default();
    for seed in 0..cases() {
        let r = &mut Random::new(seed);
        let t = inputs::mixed(r);
        let need = plain::run_list(&t.weights).len();
        let (weights, firsts) = (r.room(need), r.room(need));
        let (weights, firsts, answer) = (r.junk(weights), r.junk(firsts), r.answer());
        both!(seen, runs, (t.k, &t.letters, &t.ends, &t.weights), (weights, firsts, answer));
    }
    seen.expect("RUNS", &[0, 1, 2, 4, 5, 6]);
}

/// A run list, often damaged, and its n.
fn run_list(r: &mut Random, weights: &[u32]) -> (Vec<u32>, Vec<u32>, usize) {
    let (mut run_weights, mut firsts): (Vec<u32>, Vec<u32>) = plain::run_list(weights).into_iter().unzip();
    let mut n = weights.len();
    if r.chance(50) {
        match r.below(4) {
            0 => {
                let value = r.pick(&[0, 1, 16_777_215, 16_777_216, u32::MAX, 5]);
                inputs::spoil(r, &mut run_weights, value);
            }
            1 => {
                let value = inputs::odd_number(r, n as u32);
                inputs::spoil(r, &mut firsts, value);
            }
            2 => {
                let at = r.below(run_weights.len() + 1);
                run_weights.truncate(at);
                firsts.truncate(at);
            }
            _ => {
                n = r.pick(&[0, 1, n + 1, n.wrapping_sub(1), 1_048_576, 1_048_577, usize::MAX, 1 << 32, (1 << 32) + n])
            }
        }
    }
    (run_weights, firsts, n)
}

#[test]
fn weight() {
    let mut seen = Seen::default();
    for seed in 0..3 * cases() {
        let r = &mut Random::new(seed);
        let n = r.below(40);
        let weights = inputs::weights(r, n);
        let (weights, firsts, n) = run_list(r, &weights);
        let handle = match r.below(6) {
            0 => r.pick(&[0, 1, n, n.wrapping_add(1), usize::MAX, 1 << 32, (1 << 32) + 1, 1_048_576]),
            _ => 1 + r.below(n.clamp(1, 40)),
        };
        let answer = r.answer();
        both!(seen, weight, (&weights, &firsts, n, handle), (answer));
    }
    seen.expect("WEIGHT", &[0, 1, 9, 12]);
}

#[test]
fn access() {
    let mut seen = Seen::default();
    for seed in 0..3 * cases() {
        let r = &mut Random::new(seed);
        let t = inputs::mixed(r);
        let n = t.weights.len();
        let handle = match r.below(6) {
            0 => r.pick(&[0, 1, n, n + 1, usize::MAX, 1 << 32, (1 << 32) + 1]),
            _ => 1 + r.below(n.max(1)),
        };
        let answer = r.answer();
        both!(seen, access, (t.k, &t.letters, &t.ends, handle), (answer));
    }
    seen.expect("ACCESS", &[0, 1, 2, 4, 9]);
}

#[test]
fn plain_question() {
    let mut seen = Seen::default();
    let (mut asked, mut turned) = (0, 0);
    for seed in 0..3 * cases() {
        let r = &mut Random::new(seed);
        let t = if r.chance(80) { inputs::any(r) } else { inputs::free(r) };
        let word = inputs::word(r, &t);
        let mut t = t;
        if r.chance(20) {
            inputs::damage(r, &mut t);
        }
        let answer = r.answer();
        both!(seen, plain, (t.k, &t.letters, &t.ends, &t.weights, &word), (answer));
        let mut answer = [9; 4];
        if raw::plain(t.k, &t.letters, &t.ends, &t.weights, &word, &mut answer) == 0 && answer[0] > 0 {
            *(if answer[1] == 0 { &mut asked } else { &mut turned }) += 1;
        }
    }
    assert!(asked > cases() / 40 && turned > cases() / 40, "both sides are asked often enough");
    seen.expect("PLAIN", &[0, 1, 2, 4, 5, 6, 9]);
}

fn some_p(r: &mut Random, k: usize) -> usize {
    if r.chance(6) {
        r.pick(&[0, 9, k + 1, usize::MAX, 1 << 32, (1 << 32) + 2, 64])
    } else {
        let most = if r.chance(80) { 4 } else { 8 };
        r.between(1, k.min(most))
    }
}

#[test]
fn index() {
    let mut seen = Seen::default();
    for seed in 0..cases() {
        let r = &mut Random::new(seed);
        let mut t = if r.chance(25) { inputs::any(r) } else { inputs::free(r) };
        let p = some_p(r, t.k);
        if r.chance(25) {
            inputs::damage(r, &mut t);
        }
        let fits = (1..=8).contains(&p);
        let need = if t.good() && fits && p <= t.k { plain::stretches(t.k, p, &t.letters, &t.ends).len() } else { 5 };
        let lengths = [
            r.room(need),
            r.room(need),
            r.room(need),
            r.room(if fits { (1 << (2 * p)) + 1 } else { 5 }),
            r.room(4 * t.weights.len()),
        ];
        let [firsts, positions, numbers, before, work] = lengths.map(|l| r.junk(l));
        let answer = r.answer();
        both!(
            seen,
            index,
            (t.k, p, &t.letters, &t.ends, &t.weights),
            (firsts, positions, numbers, before, work, answer)
        );
    }
    seen.expect("INDEX", &[0, 1, 2, 4, 5, 6, 7]);
}

/// A question: k, p, word, letters, index; often damaged.
fn question(r: &mut Random) -> (Tables, usize, Vec<u8>, inputs::Rows) {
    let mut t = if r.chance(40) { inputs::any(r) } else { inputs::free(r) };
    let most = if r.chance(90) { 3 } else { 8 };
    let mut p = r.between(1, t.k.min(most));
    let mut rows = inputs::rows(p, &t);
    let word = inputs::word(r, &t);
    if r.chance(40) {
        let near = r.pick(&[t.letters.len() as u32, rows.firsts.len() as u32, 1]);
        let value = inputs::odd_number(r, near);
        match r.below(9) {
            0 => t.k = inputs::odd_k(r, t.k),
            1 => p = some_p(r, t.k),
            // Letters are not judged: a wrong one only never equals. Fewer of them may not hold a stretch.
            2 => {
                let value = r.pick(b"ACGTNa\0");
                inputs::spoil(r, &mut t.letters, value);
            }
            3 => inputs::spoil(r, &mut rows.firsts, value),
            4 => inputs::spoil(r, &mut rows.positions, value),
            5 => inputs::spoil(r, &mut rows.numbers, value),
            6 => inputs::spoil(r, &mut rows.before, value),
            // The rows that this word walks: most other damage misses them.
            7 if word.len() == t.k && word.iter().all(|l| b"ACGT".contains(l)) => {
                let words = [word.clone(), plain::turned(&word)];
                let least = plain::minimizer(p, &words[r.below(2)]);
                match r.below(5) {
                    0 => rows.before[least + r.below(2)] = value,
                    // An empty row fits up to the end of the tables and not beyond, wherever it stands.
                    1 => rows.before[least..least + 2].fill((rows.firsts.len() + r.below(2)) as u32),
                    _ => {
                        let at = rows.before[least] as usize;
                        if at < rows.firsts.len() {
                            let table = r.below(3);
                            [&mut rows.firsts, &mut rows.positions, &mut rows.numbers][table][at] = value;
                        }
                    }
                }
            }
            // An index of another collection.
            _ => {
                let other = inputs::free(r);
                rows = inputs::rows(p.min(other.k), &other);
            }
        }
    }
    (t, p, word, rows)
}

#[test]
fn quick() {
    let mut seen = Seen::default();
    for seed in 0..4 * cases() {
        let r = &mut Random::new(seed);
        let (t, p, word, rows) = question(r);
        let answer = r.answer();
        both!(
            seen,
            quick,
            (t.k, p, &word, &t.letters, &rows.firsts, &rows.positions, &rows.numbers, &rows.before),
            (answer)
        );
    }
    seen.expect("QUICK", &[0, 1, 2, 9, 10]);
}

#[test]
fn weigh() {
    let mut seen = Seen::default();
    for seed in 0..4 * cases() {
        let r = &mut Random::new(seed);
        let (t, p, word, rows) = question(r);
        let (weights, firsts, n) = run_list(r, &t.weights);
        let answer = r.answer();
        let (f, q, c, b) = (&rows.firsts, &rows.positions, &rows.numbers, &rows.before);
        both!(seen, weigh, (t.k, p, &word, &t.letters, f, q, c, b, &weights, &firsts, n), (answer));
    }
    seen.expect("WEIGH", &[0, 1, 2, 9, 10, 12]);
}

/// The turned word of every k and the whole of a tiny world: every word of 3 and 4 letters against one collection.
#[test]
fn every_short_word() {
    let mut seen = Seen::default();
    for seed in 0..300 {
        let r = &mut Random::new(seed);
        let t = inputs::free(r);
        if t.k > 4 {
            continue;
        }
        for p in 1..=t.k {
            let rows = inputs::rows(p, &t);
            for code in 0..1usize << (2 * t.k) {
                let word: Vec<u8> = (0..t.k).rev().map(|i| b"ACGT"[code >> (2 * i) & 3]).collect();
                let answer = vec![7; 4];
                both!(
                    seen,
                    quick,
                    (t.k, p, &word, &t.letters, &rows.firsts, &rows.positions, &rows.numbers, &rows.before),
                    (answer)
                );
                let answer = vec![7; 4];
                both!(seen, plain, (t.k, &t.letters, &t.ends, &t.weights, &word), (answer));
            }
        }
    }
    seen.expect("every short word", &[0]);
}

/// Lends all calls the same collection, with just enough room.
fn every_call(r: &mut Random, t: &Tables, p: usize, seen: &mut Seen) {
    let (k, m, n) = (t.k, t.ends.len(), t.weights.len());
    let (l, e, w) = (&t.letters, &t.ends, &t.weights);
    let answer = vec![7; 4];
    let work = r.junk(4 * n + 3);
    both!(seen, check, (k, l, e, w), (work, answer));
    let (run_weights, run_firsts, answer) = (r.junk(n), r.junk(n), vec![7; 4]);
    both!(seen, runs, (k, l, e, w), (run_weights, run_firsts, answer));
    let (firsts, positions, numbers) = (r.junk(n), r.junk(n), r.junk(n));
    let (before, work, answer) = (r.junk((1 << (2 * p)) + 1), r.junk(4 * n + 3), vec![7; 4]);
    both!(seen, index, (k, p, l, e, w), (firsts, positions, numbers, before, work, answer));
    for handle in [0, 1, n / 2, n, n + 1] {
        let answer = vec![7; 4];
        both!(seen, access, (k, l, e, handle), (answer));
    }
    let places: Vec<i32> = (1..=m as i32).rev().map(|p| if r.chance(50) { p } else { -p }).collect();
    let (letters, ends, weights, work) = (r.junk_bytes(l.len()), r.junk(m), r.junk(n), r.junk(m));
    let answer = vec![7; 4];
    both!(seen, apply, (k, l, e, w, &places), (letters, ends, weights, work, answer));
    let sheet = r.junk_bytes(if t.good() { t.sheet().len() } else { 9 });
    let answer = vec![7; 4];
    both!(seen, write, (k, l, e, w), (sheet, answer));
    if t.good() {
        let (sheet, letters, ends, weights) = (t.sheet(), r.junk_bytes(l.len()), r.junk(m), r.junk(n));
        let answer = vec![7; 4];
        both!(seen, read, (&sheet), (letters, ends, weights, answer));
        let rows = inputs::rows(p, t);
        let (run_weights, run_firsts): (Vec<u32>, Vec<u32>) = plain::run_list(w).into_iter().unzip();
        for _ in 0..20 {
            let word = inputs::word(r, t);
            let (f, q, c, b) = (&rows.firsts, &rows.positions, &rows.numbers, &rows.before);
            let answer = vec![7; 4];
            both!(seen, quick, (k, p, &word, l, f, q, c, b), (answer));
            let answer = vec![7; 4];
            both!(seen, weigh, (k, p, &word, l, f, q, c, b, &run_weights, &run_firsts, n), (answer));
            let answer = vec![7; 4];
            both!(seen, plain, (k, l, e, w, &word), (answer));
        }
    }
    cover_one(r, t, seen);
}

/// A collection of about so many letters in so many strings.
fn large(r: &mut Random, k: usize, letters: usize, strings: usize) -> Tables {
    let mut t = Tables { k, letters: r.letters(letters), ends: vec![], weights: vec![] };
    let each = letters / strings;
    t.ends.extend((1..strings).map(|i| (i * each) as u32));
    t.ends.push(letters as u32);
    t.weights = inputs::weights(r, letters - strings * (k - 1));
    t
}

#[test]
fn large_collections() {
    let mut seen = Seen::default();
    let r = &mut Random::new(5);
    for (k, letters, strings, p) in [
        (31, 1 << 20, 1, 8),
        (31, 1 << 20, 20_000, 8),
        (21, 1 << 20, 1_000, 7),
        (16, 1 << 20, 65_536, 6),
        (3, 1 << 20, 65_536, 1),
        (30, 200_000, 300, 5),
        (12, 60_000, 5_000, 4),
        (31, 1 << 16, 2_000, 8),
    ] {
        let t = large(r, k, letters, strings);
        every_call(r, &t, p, &mut seen);
        // A word repeated late, turned.
        let mut t = t;
        let word = plain::turned(&t.letters[7 * letters / 8..][..k]);
        t.letters[letters - k..].copy_from_slice(&word);
        every_call(r, &t, p, &mut seen);
    }
    println!("large collections: by number {:?}", seen.0);
}

/// The limits themselves pass, one more is 3.
#[test]
fn limits() {
    let mut seen = Seen::default();
    let r = &mut Random::new(6);
    for (letters, strings, good) in
        [(1 << 20, 65_536, true), ((1 << 20) + 1, 1, false), (700_000, 65_537, false), ((1 << 20) + 1, 65_537, false)]
    {
        let t = large(r, 10, letters, strings);
        assert_eq!(t.good(), good);
        every_call(r, &t, 3, &mut seen);
    }
    // In a sheet 3 comes after every line, but before 1.
    for (letters, strings) in [((1 << 20) + 1, 1), (700_000, 65_537)] {
        let t = large(r, 10, letters, strings);
        let mut sheet = b"K\t10\n".to_vec();
        let mut last = 0;
        for &end in &t.ends {
            let string = &t.letters[last..end as usize];
            last = end as usize;
            sheet.extend_from_slice(b"S\t");
            sheet.extend_from_slice(string);
            sheet.extend(b"\t1".repeat(string.len() - 9));
            sheet.push(b'\n');
        }
        for tail in [&b""[..], b"S"] {
            sheet.extend_from_slice(tail);
            for room in [0, sheet.len()] {
                let (letters, ends, weights, answer) = (vec![1; room], vec![1; room], vec![1; room], vec![7; 4]);
                both!(seen, read, (&sheet), (letters, ends, weights, answer));
            }
        }
    }
    // Letters and index tables of QUICK at the limits and one more.
    for (letters, stretches) in [(1 << 20, 1 << 20), ((1 << 20) + 1, 5), (9, 1 << 20), (9, (1 << 20) + 1)] {
        let letters = vec![b'A'; letters];
        let table = vec![1; stretches];
        for before in
            [[0, 0, 0, 0, 0], [0, 2, 2, 2, 2], [0, 1 << 20, 1 << 20, 1 << 20, 1 << 20], [0, (1 << 20) + 1, 0, 0, 0]]
        {
            for word in [b"CCC", b"AAA", b"TAA"] {
                let answer = vec![7; 4];
                both!(seen, quick, (3, 1, word, &letters, &table, &table, &table, &before), (answer));
            }
        }
    }
    // A run list of the most handles, and one more.
    for n in [1 << 20, (1 << 20) + 1] {
        let (weights, firsts): (Vec<u32>, Vec<u32>) = (1..=n as u32).map(|i| (1 + i % 2, i)).unzip();
        for handle in [0, 1, 77, n, n + 1] {
            let answer = vec![7; 4];
            both!(seen, weight, (&weights, &firsts, n, handle), (answer));
        }
    }
    println!("limits: by number {:?}", seen.0);
    assert!(seen.0[&3] > 20);
}

/// Groups as they are hard for a cover: one giant one, only loops, a chain, a star, many small ones.
#[test]
fn large_covers() {
    let mut seen = Seen::default();
    let r = &mut Random::new(7);
    type Ends = fn(&mut Random, usize) -> (u32, u32);
    let shapes: [Ends; 9] = [
        |_, _| (4, 4),
        |_, i| (1 + i as u32, 2 + i as u32),
        |_, i| (1, 2 + i as u32),
        |_, i| (1 + i as u32, 1 + i as u32),
        |_, i| (1 + i as u32 / 3, 1 + (i as u32 + 1) / 3),
        |_, i| (1 + 2 * i as u32, 2 + 2 * i as u32),
        |r, _| (1 + r.below(1000) as u32, 1 + r.below(1000) as u32),
        |r, _| (1 + r.below(65_536) as u32, 1 + r.below(65_536) as u32),
        |r, _| (1 + r.below(2) as u32, 16_777_215 - r.below(3) as u32),
    ];
    for shape in shapes {
        for m in [1, 2, 3, 1000, 65_536] {
            let t = pairs(r, m, shape);
            cover_one(r, &t, &mut seen);
        }
    }
    println!("large covers: by number {:?}", seen.0);
}
