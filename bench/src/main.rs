//! Times each call beside the plain implementation that the tests compare with, and the weight of a word beside a hash map
//! from the canonical word to its weight: same input, same run.
//!
//! Run it with `cargo run --release`; with an argument, say 18, it stops at 2^18 letters.
use corrivume::raw;
use std::collections::HashMap;
use std::hint::black_box;
use std::time::{Duration, Instant};

#[path = "../../hosts/rust/tests/inputs/mod.rs"]
mod inputs;
#[path = "../../hosts/rust/tests/plain/mod.rs"]
mod plain;

use inputs::{Random, Tables};

/// The best of at least three runs, and of as many as fit in a twentieth of a second.
fn best(mut run: impl FnMut()) -> f64 {
    let (start, mut best) = (Instant::now(), Duration::MAX);
    for round in 0.. {
        let now = Instant::now();
        run();
        best = best.min(now.elapsed());
        if round >= 2 && start.elapsed() > Duration::from_millis(50) {
            break;
        }
    }
    best.as_secs_f64()
}

/// What was timed, once per size: library and other, in seconds for one call.
type Rows = Vec<(&'static str, Vec<(f64, f64)>)>;

fn note(rows: &mut Rows, name: &'static str, times: (f64, f64)) {
    match rows.iter_mut().find(|r| r.0 == name) {
        Some(row) => row.1.push(times),
        None => rows.push((name, vec![times])),
    }
}

/// Times one call of both on the same tables, and sees that they answer the same.
macro_rules! time {
    ($rows:ident, $name:expr, $call:ident, ($($input:expr),*), ($($table:ident),*)) => {{
        let (mut library, mut other) = ([7; 4], [7; 4]);
        let first = best(|| assert_eq!(black_box(raw::$call($($input,)* $(&mut $table,)* &mut library)), 0));
        let second = best(|| assert_eq!(black_box(plain::$call($($input,)* $(&mut $table,)* &mut other)), 0));
        assert_eq!(library, other, "{}", $name);
        note($rows, $name, (first, second));
        library
    }};
}

/// Times a batch of questions of both; the times are for one question.
macro_rules! time_each {
    ($rows:ident, $name:expr, $count:expr, |$i:ident| $library:expr, $other:expr) => {{
        let count = $count;
        let first = best(|| {
            (0..count).for_each(|$i| {
                black_box($library);
            })
        });
        let second = best(|| {
            (0..count).for_each(|$i| {
                black_box($other);
            })
        });
        note($rows, $name, (first / count as f64, second / count as f64));
    }};
}

/// The smaller code of a word and its reverse complement: the hash map's key.
fn canonical(word: &[u8]) -> u64 {
    let (mut code, mut back) = (0, 0);
    for (i, l) in word.iter().enumerate() {
        let c = match l {
            b'A' => 0,
            b'C' => 1,
            b'G' => 2,
            _ => 3u64,
        };
        code = code << 2 | c;
        back |= (3 - c) << (2 * i);
    }
    code.min(back)
}

fn time_all(t: &Tables, p: usize, rows: &mut Rows) {
    let r = &mut Random::new(9);
    let (k, l, e, w, m, n) = (t.k, &t.letters, &t.ends, &t.weights, t.ends.len(), t.weights.len());
    // Every table is filled before it is timed, so that no call pays for fresh pages.
    let (mut work, mut sheet) = (vec![1; 4 * n.max(4 * m)], t.sheet());
    let (mut letters, mut ends, mut weights, mut places) = (vec![1; l.len()], vec![1; m], vec![1; n], vec![1; m]);
    let (mut firsts, mut positions, mut numbers) = (vec![1; n], vec![1; n], vec![1; n]);
    let mut before = vec![1; (1 << (2 * p)) + 1];
    let (mut run_weights, mut run_firsts) = (vec![1; n], vec![1; n]);

    time!(rows, "WRITE", write, (k, l, e, w), (sheet));
    time!(rows, "READ", read, (&sheet), (letters, ends, weights));
    time!(rows, "CHECK", check, (k, l, e, w), (work));
    time!(rows, "COVER", cover, (k, l, e, w), (places, work));
    time!(rows, "APPLY", apply, (k, l, e, w, &places), (letters, ends, weights, work));
    let [runs, ..] = time!(rows, "RUNS", runs, (k, l, e, w), (run_weights, run_firsts));
    let [s, ..] = time!(rows, "INDEX", index, (k, p, l, e, w), (firsts, positions, numbers, before, work));
    let (runs, s) = (runs as usize, s as usize);
    let (run_weights, run_firsts) = (&run_weights[..runs], &run_firsts[..runs]);
    let (firsts, positions, numbers) = (&firsts[..s], &positions[..s], &numbers[..s]);

    // Words that stand there, as asked and turned, and others, in random order.
    let words: Vec<Vec<u8>> = (0..4096)
        .map(|i| {
            let at = r.below(m);
            let (start, end) = (if at == 0 { 0 } else { e[at - 1] as usize }, e[at] as usize);
            let first = start + r.below(end - start + 1 - k);
            match i % 3 {
                0 => l[first..first + k].to_vec(),
                1 => plain::turned(&l[first..first + k]),
                _ => r.letters(k),
            }
        })
        .collect();
    let handles: Vec<usize> = words.iter().map(|_| 1 + r.below(n)).collect();
    let (mut a, mut b) = ([0; 4], [0; 4]);
    // Calls that judge a whole table each time get fewer questions.
    let few = |cost: usize| (40_000_000 / (cost + 1)).clamp(4, words.len());
    time_each!(
        rows,
        "ACCESS",
        few(m),
        |i| raw::access(k, l, e, handles[i], &mut a),
        plain::access(k, l, e, handles[i], &mut b)
    );
    let weight_count = few(runs);
    time_each!(
        rows,
        "WEIGHT",
        weight_count,
        |i| raw::weight(run_weights, run_firsts, n, handles[i], &mut a),
        plain::weight(run_weights, run_firsts, n, handles[i], &mut b)
    );
    time_each!(
        rows,
        "PLAIN",
        few(10 * n),
        |i| raw::plain(k, l, e, w, &words[i], &mut a),
        plain::plain(k, l, e, w, &words[i], &mut b)
    );
    time_each!(
        rows,
        "QUICK",
        words.len(),
        |i| raw::quick(k, p, &words[i], l, firsts, positions, numbers, &before, &mut a),
        plain::quick(k, p, &words[i], l, firsts, positions, numbers, &before, &mut b)
    );

    let mut map = HashMap::with_capacity(n);
    for (i, end) in e.iter().enumerate() {
        let start = if i == 0 { 0 } else { e[i - 1] as usize };
        for word in l[start..*end as usize].windows(k) {
            map.insert(canonical(word), w[map.len()]);
        }
    }
    assert_eq!(map.len(), n);
    for word in &words[..weight_count] {
        assert_eq!(
            raw::weigh(k, p, word, l, firsts, positions, numbers, &before, run_weights, run_firsts, n, &mut a),
            0
        );
        assert_eq!((a[0] == 1).then_some(a[1] as u32), map.get(&canonical(word)).copied());
    }
    time_each!(
        rows,
        "QUICK+WEIGHT / map",
        weight_count,
        |i| raw::weigh(k, p, &words[i], l, firsts, positions, numbers, &before, run_weights, run_firsts, n, &mut a),
        map.get(&canonical(&words[i]))
    );
    time_each!(
        rows,
        "QUICK / map",
        words.len(),
        |i| raw::quick(k, p, &words[i], l, firsts, positions, numbers, &before, &mut a),
        map.get(&canonical(&words[i]))
    );
}

/// How weights are given out.
#[derive(Clone, Copy)]
enum Weights {
    /// Runs of about eight, from fifty values: many strings make few giant groups.
    Runs,
    /// All equal: one group, one run.
    Equal,
    /// Three values at random: one giant group.
    Three,
    /// From as many values as there are strings: one giant group and many small ones, and nearly no runs.
    Many,
}

fn collection(k: usize, letters: usize, strings: usize, kind: Weights) -> Tables {
    let r = &mut Random::new((letters + strings) as u64);
    let each = letters / strings;
    let ends = (1..=strings).map(|i| if i == strings { letters } else { i * each } as u32).collect();
    let mut last = 1;
    let weights = (0..letters - strings * (k - 1))
        .map(|_| {
            match kind {
                Weights::Runs if r.below(8) == 0 => last = 1 + r.below(50) as u32,
                Weights::Three => last = 1 + r.below(3) as u32,
                Weights::Many => last = 1 + r.below(strings) as u32,
                _ => {}
            }
            last
        })
        .collect();
    // Random letters repeat no word of 21 letters at these sizes.
    Tables { k, letters: r.letters(letters), ends, weights }
}

fn span(seconds: f64) -> String {
    match seconds {
        s if s < 1e-6 => format!("{:.0} ns", s * 1e9),
        s if s < 1e-3 => format!("{:.1} us", s * 1e6),
        s => format!("{:.1} ms", s * 1e3),
    }
}

fn load() -> String {
    std::fs::read_to_string("/proc/loadavg")
        .map_or("unknown".into(), |l| l.split(' ').take(3).collect::<Vec<_>>().join(" "))
}

fn main() {
    let most: u32 = std::env::args().nth(1).map_or(20, |a| a.parse().expect("a power of two: 14, 16, 18 or 20"));
    let sizes: Vec<u32> = [14, 16, 18, 20].into_iter().filter(|&s| s <= most).collect();
    println!("Library beside plain Rust, release, best of at least three runs; load at the start {}.", load());
    println!("All lent buffers were filled before timing. The plain calls allocate what they need inside the time.");
    println!(
        "Each column: library's time for one call, and its ratio to the other's (below 1: the library is faster)."
    );
    println!("Growth: library's time at the largest size by the one before, a quarter as large (4: linear).");
    println!("The last two lines of each table are beside a HashMap from word to weight.");
    type Strings = fn(usize) -> usize;
    let few: Strings = |_| 16;
    let many: Strings = |letters| (letters / 64).min(16_384);
    let shapes: [(&str, usize, Strings, Weights); 6] = [
        ("k 31, 16 strings, runs of about 8", 31, few, Weights::Runs),
        ("k 31, many strings, runs of about 8", 31, many, Weights::Runs),
        ("k 31, many strings, all weights equal", 31, many, Weights::Equal),
        ("k 21, 16 strings, three weights at random", 21, few, Weights::Three),
        ("k 21, many strings, three weights at random", 21, many, Weights::Three),
        ("k 21, many strings, many weights", 21, many, Weights::Many),
    ];
    for (name, k, strings, kind) in shapes {
        let mut rows = Rows::new();
        for &size in &sizes {
            let letters = 1 << size;
            time_all(&collection(k, letters, strings(letters), kind), 8, &mut rows);
        }
        print!("\n{:<50}", format!("{name}, p 8"));
        sizes.iter().for_each(|s| print!("{:>20}", format!("N = 2^{s}")));
        println!("{:>9}", "growth");
        for (call, times) in rows {
            print!("{call:<50}");
            times.iter().for_each(|t| print!("{:>20}", format!("{} x{:.2}", span(t.0), t.0 / t.1)));
            match times[..] {
                [.., a, b] => println!("{:>9.1}", b.0 / a.0),
                _ => println!(),
            }
        }
    }
    println!("\nLoad at the end {}.", load());
}
