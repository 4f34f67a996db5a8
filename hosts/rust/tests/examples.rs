//! The worked examples and the chosen readings of the specification, through the safe calls; and dictionaries of seeded
//! collections beside a hash map.
mod inputs;
mod plain;

use corrivume::{Answer, Collection, Dictionary, Error, Side};
use inputs::Random;
use std::collections::HashMap;

const SHEET: &[u8] = b"K\t3\nS\tAAACC\t2\t2\t5\nS\tAGAT\t7\t2\nS\tCAGCC\t7\t7\t3\nS\tTACA\t3\t5\n";

fn given() -> Collection {
    Collection::read(SHEET).unwrap()
}

fn refusal<T: std::fmt::Debug>(outcome: Result<T, Error>) -> (u32, usize) {
    let refused = outcome.unwrap_err();
    assert!(refused.to_string().ends_with(&format!("(refusal {})", refused.number())));
    (refused.number(), refused.place())
}

/// The least runs, by COVER, APPLY and RUNS, and the paths.
fn least(c: &Collection) -> (usize, usize) {
    let cover = c.cover().unwrap();
    (c.apply(&cover.places).unwrap().runs().unwrap().len(), cover.paths)
}

/// Strings of two k-mers with these end weights.
fn pairs(ends: &[(u32, u32)]) -> Collection {
    let letters = b"ACAT".repeat(ends.len());
    let weights: Vec<u32> = ends.iter().flat_map(|&(a, b)| [a, b]).collect();
    Collection::new(3, letters, (1..=ends.len() as u32).map(|i| 4 * i).collect::<Vec<_>>(), weights).unwrap()
}

#[test]
fn the_sheet() {
    let c = given();
    assert_eq!(c.write(), SHEET);
    assert_eq!((c.k(), c.strings(), c.kmers()), (3, 4, 10));
    c.check().unwrap();
    assert_eq!(c.runs().unwrap().len(), 7);
    assert_eq!(least(&c), (5, 1));
    let placed = c.apply(&[1, 4, -3, -2]).unwrap();
    assert_eq!(placed.letters(), b"AAACCTGTAGGCTGAGAT");
    assert_eq!(placed.ends(), [5, 9, 14, 18]);
    assert_eq!(placed.weights(), [2, 2, 5, 5, 3, 3, 7, 7, 7, 2]);
    let runs = placed.runs().unwrap();
    assert_eq!(runs.iter().collect::<Vec<_>>(), [(2, 1), (5, 3), (3, 5), (7, 7), (2, 10)]);
}

#[test]
fn questions() {
    let d = Dictionary::new(given().apply(&[1, 4, -3, -2]).unwrap(), 2).unwrap();
    let found = d.ask(b"CAG").unwrap().unwrap();
    assert_eq!((found.handle, found.side, found.compared), (8, Side::Turned, 3));
    assert_eq!(d.weight(b"CAG"), Ok(Some(7)));
    let found = d.ask(b"TTT").unwrap().unwrap();
    assert_eq!((found.handle, found.side), (1, Side::Turned));
    assert_eq!(d.ask(b"CCC"), Ok(None));
    assert_eq!(d.weight(b"CCC"), Ok(None));
    let stretches: Vec<_> = d.index().firsts().iter().zip(d.index().numbers()).map(|(&f, &n)| (f, n)).collect();
    assert!(stretches.contains(&(6, 1)) && stretches.contains(&(7, 2)));
    assert_eq!(d.collection().access(7).unwrap(), b"GCT");
    assert_eq!(d.collection().plain(b"CAG"), Ok(Some((8, Side::Turned))));
    assert_eq!(d.runs().weight(8), Ok(7));
    for word in [&b"CA"[..], b"CAGC", b"CAN", b"cag", b""] {
        assert_eq!(refusal(d.ask(word)), (9, 0));
        assert_eq!(refusal(d.weight(word)), (9, 0));
        assert_eq!(refusal(d.collection().plain(word)), (9, 0));
    }
}

#[test]
fn covers() {
    let three = Collection::new(3, *b"AAACCCAGCCTACA", [5, 10, 14], [2, 2, 5, 7, 7, 3, 3, 5]).unwrap();
    assert_eq!(least(&three), (4, 1));
    assert_eq!(pairs(&[(1, 2), (2, 3), (2, 2)]).cover().unwrap().paths, 1);
    assert_eq!(pairs(&[(4, 4), (9, 9)]).cover().unwrap().paths, 2);
    assert_eq!(least(&Collection::new(3, [], [], []).unwrap()), (0, 0));
    // A string of one k-mer counts its weight twice.
    assert_eq!(Collection::new(3, *b"AAA", [3], [2]).unwrap().cover().unwrap().paths, 1);
}

#[test]
fn refusals() {
    let one = |k, weight| Collection::new(k, vec![b'A'; k], [k as u32], [weight]);
    assert!(one(3, 16_777_215).is_ok() && one(3, 1).is_ok() && one(31, 1).is_ok());
    assert_eq!(refusal(one(3, 16_777_216)), (6, 1));
    assert_eq!(refusal(one(3, 0)), (6, 1));
    assert_eq!((refusal(one(32, 1)), refusal(one(2, 1))), ((2, 0), (2, 0)));
    assert_eq!(refusal(given().apply(&[1, -1])), (8, 0));
    assert_eq!(refusal(given().apply(&[1, -1, 3, 4])), (8, 2));
    assert_eq!(refusal(given().apply(&[1, i32::MIN, 3, 4])), (8, 2));
    assert_eq!(refusal(Collection::new(3, *b"ACGCGT", [3, 6], [1, 1]).unwrap().check()), (7, 2));
    // Ends that fall, or miss the letters.
    let ends = |n: usize, ends: &[u32]| Collection::new(3, vec![b'A'; n], ends, []);
    assert_eq!(refusal(ends(5, &[100, 5])), (4, 2));
    assert_eq!(refusal(ends(50, &[100, 200])), (4, 3));
    assert_eq!(refusal(ends(1, &[])), (4, 1));
    assert_eq!(refusal(ends(3, &[3])), (6, 0));
    assert_eq!(refusal(Collection::new(3, *b"ACN", [3], [1])), (5, 3));
    assert_eq!(refusal(Collection::new(3, vec![b'A'; (1 << 20) + 1], [(1 << 20) + 1], [])), (3, 0));
    assert_eq!((refusal(given().access(0)), refusal(given().access(11))), ((9, 0), (9, 0)));
    for p in [0, 4, 9, usize::MAX] {
        assert_eq!(refusal(given().index(p)), (2, 0));
    }
    // Another collection's index.
    let (short, long) =
        (Collection::new(3, *b"AAA", [3], [1]).unwrap(), Collection::new(3, *b"CAAA", [4], [1, 1]).unwrap());
    assert_eq!(refusal(long.index(1).unwrap().quick(&short, b"AAA")), (10, 0));
}

#[test]
fn sheets() {
    for (sheet, expected) in [
        ("", (11, 1)),
        ("K\t3", (11, 1)),
        ("K\t03\n", (11, 1)),
        ("K\t100\n", (11, 1)),
        ("K\t0\n", (2, 0)),
        ("K\t2\nx", (2, 0)),
        ("K\t32\n", (2, 0)),
        ("K\t3\n\n", (11, 2)),
        ("K\t3\nS\tACG\t1\nS\tACG\t4294967297\n", (11, 3)),
        ("K\t3\nS\tACG\t0\n", (11, 2)),
        ("K\t3\nS\tACG\t01\n", (11, 2)),
        ("K\t3\nS\tAC\n", (11, 2)),
        ("K\t3\nS\tACG\t1\r\n", (11, 2)),
        ("K\t3\nS\tACG\t1", (11, 2)),
    ] {
        assert_eq!(refusal(Collection::read(sheet.as_bytes())), expected, "{sheet:?}");
    }
    let empty = Collection::read(b"K\t31\n").unwrap();
    assert_eq!((empty.k(), empty.strings(), empty.kmers()), (31, 0, 0));
    assert_eq!(empty.write(), b"K\t31\n");
    assert!(empty.runs().unwrap().is_empty());
    assert_eq!(refusal(empty.runs().unwrap().weight(1)), (9, 0));
}

/// Every word of a collection, its turned word, and absent ones, through all calls that answer questions.
#[test]
fn dictionaries() {
    let mut asked = 0;
    for seed in 0..4_000 {
        let r = &mut Random::new(seed);
        let t = inputs::free(r);
        let k = t.k;
        let given = Collection::new(k, t.letters, t.ends, t.weights).unwrap();
        assert_eq!(Collection::read(&given.write()).unwrap(), given);
        let least = given.apply(&given.cover().unwrap().places).unwrap();
        let mut weights = HashMap::new();
        for handle in 1..=given.kmers() {
            weights.insert(given.access(handle).unwrap().to_vec(), given.weights()[handle - 1]);
        }
        let d = Dictionary::new(least.clone(), r.between(1, k.min(5))).unwrap();
        for handle in 1..=least.kmers() {
            let word = least.access(handle).unwrap();
            let turned = plain::turned(word);
            for (word, side) in [(word, Side::Asked), (&turned[..], Side::Turned)] {
                let found = d.ask(word).unwrap().unwrap();
                let side = if word == plain::turned(word) { Side::Asked } else { side };
                assert_eq!((found.handle, found.side), (handle, side));
                assert_eq!(least.plain(word), Ok(Some((handle, side))));
                let expected = weights.get(word).or(weights.get(&plain::turned(word))).copied();
                assert_eq!(d.weight(word), Ok(expected));
                assert_eq!(d.runs().weight(handle).ok(), expected);
                asked += 1;
            }
        }
        for _ in 0..20 {
            let word = r.letters(k);
            let expected = weights.get(&word).or(weights.get(&plain::turned(&word))).copied();
            assert_eq!(d.weight(&word), Ok(expected));
            let answer = d.index().quick(&least, &word).unwrap();
            assert_eq!(matches!(answer, Answer::Found(_)), expected.is_some());
            asked += 1;
        }
    }
    println!("dictionaries: {asked} words asked");
}
