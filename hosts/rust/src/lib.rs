//! A proved dictionary of weighted k-mers: safe Rust with owned tables over its C interface.
//!
//! A [`Collection`] holds DNA strings in which every word of k letters (a k-mer) has a weight. It can be put in an order
//! with the fewest runs of equal weights ([`Collection::cover`], [`Collection::apply`]), its runs listed
//! ([`Collection::runs`]), and a [`Dictionary`] made of it answers whether a word stands there, as asked or as its reverse
//! complement, under which handle, with which weight.
//!
//! ```
//! use corrivume::{Collection, Dictionary, Side};
//!
//! let sheet = b"K\t3\nS\tAAACC\t2\t2\t5\nS\tAGAT\t7\t2\nS\tCAGCC\t7\t7\t3\nS\tTACA\t3\t5\n";
//! let given = Collection::read(sheet)?;
//! assert_eq!(given.runs()?.len(), 7);
//!
//! let cover = given.cover()?;
//! let least = given.apply(&cover.places)?;
//! assert_eq!((cover.paths, least.runs()?.len()), (1, 5));
//!
//! let dictionary = Dictionary::new(least, 2)?;
//! let found = dictionary.ask(b"TTT")?.expect("AAA is there");
//! assert_eq!(found.side, Side::Turned);
//! assert_eq!(dictionary.weight(b"CAG")?, Some(7));
//! assert_eq!(dictionary.weight(b"CCC")?, None);
//! # Ok::<(), corrivume::Error>(())
//! ```
#![deny(missing_docs)]

pub mod raw;

use std::fmt;

/// The most letters a collection may have.
pub const MOST_LETTERS: usize = 1_048_576;
/// The most strings a collection may have.
pub const MOST_STRINGS: usize = 65_536;

/// Why a call was refused: the refusal's number, and the place where it was seen.
///
/// ```
/// let refused = corrivume::Collection::read(b"K\t3\nS\tACN\t1\n").unwrap_err();
/// assert_eq!((refused.number(), refused.place()), (11, 2));
/// assert_eq!(refused, corrivume::Error::Line(2));
/// assert_eq!(refused.to_string(), "line 2 of the sheet is wrong (refusal 11)");
/// ```
#[derive(Clone, Copy, Debug, PartialEq, Eq, Hash)]
#[non_exhaustive]
pub enum Error {
    /// 1: a lent output or work table is too short.
    Room,
    /// 2: k is not 3 to 31, or p is not 1 to 8 and at most k.
    Sizes,
    /// 3: too many letters or strings.
    TooLarge,
    /// 4: this string is shorter than k; or it is one past the last, and the last end is not the number of letters.
    String(usize),
    /// 5: this letter is not A, C, G or T.
    Letter(usize),
    /// 6: there is not exactly one weight for each k-mer.
    WeightCount,
    /// 6: this weight is not 1 to 16,777,215.
    Weight(usize),
    /// 7: the word of this handle stands earlier too, as it is or turned.
    Repeat(usize),
    /// 8: there is not exactly one place for each string.
    PlaceCount,
    /// 8: the place of this string is zero, too large or used by an earlier string.
    Place(usize),
    /// 9: the asked word is not k letters of A, C, G, T, or the handle is not 1 to n.
    Asked,
    /// 10: the index doesn't fit.
    Index,
    /// 11: this line of the sheet is wrong.
    Line(usize),
    /// 12: the run list is bad.
    RunList,
    /// A number that is none of these, with its place.
    Other(u32, usize),
}

impl Error {
    fn new(number: u32, place: usize) -> Self {
        match (number, place) {
            (1, 0) => Error::Room,
            (2, 0) => Error::Sizes,
            (3, 0) => Error::TooLarge,
            (4, _) => Error::String(place),
            (5, _) => Error::Letter(place),
            (6, 0) => Error::WeightCount,
            (6, _) => Error::Weight(place),
            (7, _) => Error::Repeat(place),
            (8, 0) => Error::PlaceCount,
            (8, _) => Error::Place(place),
            (9, 0) => Error::Asked,
            (10, 0) => Error::Index,
            (11, _) => Error::Line(place),
            (12, 0) => Error::RunList,
            _ => Error::Other(number, place),
        }
    }

    /// The number of the refusal, 1 to 12.
    pub fn number(&self) -> u32 {
        match self {
            Error::Room => 1,
            Error::Sizes => 2,
            Error::TooLarge => 3,
            Error::String(_) => 4,
            Error::Letter(_) => 5,
            Error::WeightCount | Error::Weight(_) => 6,
            Error::Repeat(_) => 7,
            Error::PlaceCount | Error::Place(_) => 8,
            Error::Asked => 9,
            Error::Index => 10,
            Error::Line(_) => 11,
            Error::RunList => 12,
            Error::Other(number, _) => *number,
        }
    }

    /// The place that goes with the number, counted from 1; 0 where the refusal has none.
    pub fn place(&self) -> usize {
        match *self {
            Error::String(place)
            | Error::Letter(place)
            | Error::Weight(place)
            | Error::Repeat(place)
            | Error::Place(place)
            | Error::Line(place)
            | Error::Other(_, place) => place,
            _ => 0,
        }
    }
}

impl fmt::Display for Error {
    fn fmt(&self, f: &mut fmt::Formatter<'_>) -> fmt::Result {
        let at = self.place();
        match self {
            Error::Room => write!(f, "a lent output or work table is too short"),
            Error::Sizes => write!(f, "k is not 3 to 31, or p is not 1 to 8 and at most k"),
            Error::TooLarge => {
                write!(f, "there are more than {MOST_LETTERS} letters or more than {MOST_STRINGS} strings")
            }
            Error::String(_) => {
                write!(f, "string {at} is shorter than k, or is one past the last and the ends miss the letters")
            }
            Error::Letter(_) => write!(f, "letter {at} is not A, C, G or T"),
            Error::WeightCount => write!(f, "there is not exactly one weight for each k-mer"),
            Error::Weight(_) => write!(f, "weight {at} is not 1 to 16777215"),
            Error::Repeat(_) => write!(f, "the word of handle {at} stands earlier too, as it is or turned"),
            Error::PlaceCount => write!(f, "there is not exactly one place for each string"),
            Error::Place(_) => write!(f, "the place of string {at} is zero, too large or used by an earlier string"),
            Error::Asked => write!(f, "the asked word is not k letters of A, C, G, T, or the handle is not 1 to n"),
            Error::Index => write!(f, "the index doesn't fit"),
            Error::Line(_) => write!(f, "line {at} of the sheet is wrong"),
            Error::RunList => write!(f, "the run list is bad"),
            Error::Other(..) => write!(f, "refused at {at}"),
        }?;
        write!(f, " (refusal {})", self.number())
    }
}

impl std::error::Error for Error {}

/// Makes one raw call with an answer table, and its number and place to a result.
fn call(one: impl FnOnce(&mut [u64]) -> u32) -> Result<[usize; raw::ANSWER], Error> {
    let mut answer = [0; raw::ANSWER];
    let number = one(&mut answer);
    // Every answer counts entries of tables or k-mers compared in them: on 64 bits nothing is cut off.
    let answer = answer.map(|a| a as usize);
    if number == 0 { Ok(answer) } else { Err(Error::new(number, answer[0])) }
}

/// How a word stands in the collection.
#[derive(Clone, Copy, Debug, PartialEq, Eq, Hash)]
pub enum Side {
    /// As it was asked, written `+`.
    Asked,
    /// As its reverse complement, written `-`.
    Turned,
}

impl fmt::Display for Side {
    fn fmt(&self, f: &mut fmt::Formatter<'_>) -> fmt::Result {
        f.write_str(if *self == Side::Asked { "+" } else { "-" })
    }
}

fn side(answer: usize) -> Side {
    if answer == 0 { Side::Asked } else { Side::Turned }
}

/// Weighted DNA strings: k, the letters end to end, the strings' ends and one weight for each k-mer.
///
/// A value of this type was judged when it was made: only repeated words may still be in it ([`Collection::check`]).
#[derive(Clone, Debug, PartialEq, Eq)]
pub struct Collection {
    k: usize,
    letters: Vec<u8>,
    ends: Vec<u32>,
    weights: Vec<u32>,
}

/// Signed places with the fewest runs, and how many paths they make.
#[derive(Clone, Debug, PartialEq, Eq)]
pub struct Cover {
    /// For each string its place from 1, negative if the string is turned.
    pub places: Vec<i32>,
    /// The number of maximal chains of strings that join at equal weights.
    pub paths: usize,
}

impl Collection {
    /// Takes the tables of a collection, and judges them. End i is the number of letters up to the end of string i.
    ///
    /// ```
    /// use corrivume::Collection;
    /// let good = Collection::new(3, *b"AAACCAGAT", [5, 9], [2, 2, 5, 7, 2])?;
    /// assert_eq!(good.strings(), 2);
    /// let refused = Collection::new(3, *b"AAACCAGAT", [5, 9], [2, 2, 5, 7, 0]).unwrap_err();
    /// assert_eq!((refused.number(), refused.place()), (6, 5));
    /// # Ok::<(), corrivume::Error>(())
    /// ```
    pub fn new(
        k: usize, letters: impl Into<Vec<u8>>, ends: impl Into<Vec<u32>>, weights: impl Into<Vec<u32>>,
    ) -> Result<Self, Error> {
        let made = Collection { k, letters: letters.into(), ends: ends.into(), weights: weights.into() };
        // WRITE judges everything but repeats before it looks at its output, and no sheet is empty: lent no room, it
        // refuses a good collection with 1 and any other with its own number.
        match call(|a| raw::write(k, &made.letters, &made.ends, &made.weights, &mut [], a)) {
            Err(refused) if refused != Error::Room => Err(refused),
            _ => Ok(made),
        }
    }

    /// READ: the collection that a sheet writes down.
    ///
    /// ```
    /// let read = corrivume::Collection::read(b"K\t3\nS\tAAACC\t2\t2\t5\n")?;
    /// assert_eq!((read.k(), read.letters(), read.ends(), read.weights()), (3, &b"AAACC"[..], &[5][..], &[2, 2, 5][..]));
    /// # Ok::<(), corrivume::Error>(())
    /// ```
    pub fn read(sheet: &[u8]) -> Result<Self, Error> {
        // A table never fills more entries than the sheet has bytes, nor more than the limits, which are judged before
        // the room: 1 cannot happen.
        let room = sheet.len().min(MOST_LETTERS);
        let (mut letters, mut ends, mut weights) = (vec![0; room], vec![0; room.min(MOST_STRINGS)], vec![0; room]);
        let [k, n_letters, n_ends, n_weights] = call(|a| raw::read(sheet, &mut letters, &mut ends, &mut weights, a))?;
        letters.truncate(n_letters);
        ends.truncate(n_ends);
        weights.truncate(n_weights);
        Ok(Collection { k, letters, ends, weights })
    }

    /// WRITE: the collection's sheet.
    ///
    /// ```
    /// let sheet = b"K\t3\nS\tAAACC\t2\t2\t5\n";
    /// assert_eq!(corrivume::Collection::read(sheet)?.write(), sheet);
    /// # Ok::<(), corrivume::Error>(())
    /// ```
    pub fn write(&self) -> Vec<u8> {
        let most = 5 + 3 * self.ends.len() + self.letters.len() + 9 * self.weights.len();
        let mut sheet = vec![0; most];
        let [bytes, ..] = call(|a| raw::write(self.k, &self.letters, &self.ends, &self.weights, &mut sheet, a))
            .expect("a collection was judged when it was made, and this room is enough");
        sheet.truncate(bytes);
        sheet
    }

    /// CHECK: refuses with 7 if a word repeats, turned or not.
    ///
    /// ```
    /// let twice = corrivume::Collection::new(3, *b"ACGCGT", [3, 6], [1, 1])?;
    /// let refused = twice.check().unwrap_err();
    /// assert_eq!((refused.number(), refused.place()), (7, 2));
    /// # Ok::<(), corrivume::Error>(())
    /// ```
    pub fn check(&self) -> Result<(), Error> {
        let mut work = vec![0; 4 * self.weights.len()];
        call(|a| raw::check(self.k, &self.letters, &self.ends, &self.weights, &mut work, a)).map(|_| ())
    }

    /// COVER: signed places with the least number of runs.
    ///
    /// ```
    /// let two = corrivume::Collection::new(3, *b"AAACCC", [3, 6], [4, 9])?;
    /// assert_eq!(two.cover()?.paths, 2);
    /// # Ok::<(), corrivume::Error>(())
    /// ```
    pub fn cover(&self) -> Result<Cover, Error> {
        let (mut places, mut work) = (vec![0; self.ends.len()], vec![0; 16 * self.ends.len()]);
        let [paths, ..] =
            call(|a| raw::cover(self.k, &self.letters, &self.ends, &self.weights, &mut places, &mut work, a))?;
        Ok(Cover { places, paths })
    }

    /// APPLY: the collection with each string at its place, turned with its weights where the place is negative.
    ///
    /// ```
    /// let given = corrivume::Collection::new(3, *b"AAACCAGAT", [5, 9], [2, 2, 5, 7, 2])?;
    /// let turned = given.apply(&[2, -1])?;
    /// assert_eq!((turned.letters(), turned.weights()), (&b"ATCTAAACC"[..], &[2, 7, 2, 2, 5][..]));
    /// assert_eq!(given.apply(&[1, -1]).unwrap_err().place(), 2);
    /// # Ok::<(), corrivume::Error>(())
    /// ```
    pub fn apply(&self, places: &[i32]) -> Result<Collection, Error> {
        let (mut letters, mut ends) = (vec![0; self.letters.len()], vec![0; self.ends.len()]);
        let (mut weights, mut work) = (vec![0; self.weights.len()], vec![0; self.ends.len()]);
        call(|a| {
            let (l, e, w) = (&self.letters, &self.ends, &self.weights);
            raw::apply(self.k, l, e, w, places, &mut letters, &mut ends, &mut weights, &mut work, a)
        })?;
        Ok(Collection { k: self.k, letters, ends, weights })
    }

    /// RUNS: the maximal stretches of equal neighbours in all weights.
    ///
    /// ```
    /// let given = corrivume::Collection::new(3, *b"AAACCAGAT", [5, 9], [2, 2, 5, 5, 2])?;
    /// let runs = given.runs()?;
    /// assert_eq!(runs.iter().collect::<Vec<_>>(), [(2, 1), (5, 3), (2, 5)]);
    /// # Ok::<(), corrivume::Error>(())
    /// ```
    pub fn runs(&self) -> Result<RunList, Error> {
        let n = self.weights.len();
        let (mut weights, mut firsts) = (vec![0; n], vec![0; n]);
        let [runs, ..] =
            call(|a| raw::runs(self.k, &self.letters, &self.ends, &self.weights, &mut weights, &mut firsts, a))?;
        weights.truncate(runs);
        firsts.truncate(runs);
        Ok(RunList { weights, firsts, n })
    }

    /// ACCESS: the k letters of a handle, as a part of the collection's letters.
    ///
    /// ```
    /// let given = corrivume::Collection::new(3, *b"AAACCAGAT", [5, 9], [2, 2, 5, 7, 2])?;
    /// assert_eq!(given.access(4)?, b"AGA");
    /// assert_eq!(given.access(6).unwrap_err().number(), 9);
    /// # Ok::<(), corrivume::Error>(())
    /// ```
    pub fn access(&self, handle: usize) -> Result<&[u8], Error> {
        let [start, length, ..] = call(|a| raw::access(self.k, &self.letters, &self.ends, handle, a))?;
        Ok(&self.letters[start..start + length])
    }

    /// PLAIN question, by a scan: the lowest handle of an equal word as asked, else of an equal turned word.
    ///
    /// ```
    /// use corrivume::{Collection, Side};
    /// let given = Collection::new(3, *b"AAACCAGAT", [5, 9], [2, 2, 5, 7, 2])?;
    /// assert_eq!(given.plain(b"TCT")?, Some((4, Side::Turned)));
    /// assert_eq!(given.plain(b"GGG")?, None);
    /// # Ok::<(), corrivume::Error>(())
    /// ```
    pub fn plain(&self, word: &[u8]) -> Result<Option<(usize, Side)>, Error> {
        let [handle, turned, ..] = call(|a| raw::plain(self.k, &self.letters, &self.ends, &self.weights, word, a))?;
        Ok(if handle == 0 { None } else { Some((handle, side(turned))) })
    }

    /// INDEX: the collection's stretches by their minimizers of p letters. Refuses repeated words with 7.
    ///
    /// ```
    /// let given = corrivume::Collection::new(3, *b"GGCTG", [5], [3, 7, 7])?;
    /// let index = given.index(2)?;
    /// assert_eq!((index.firsts(), index.numbers()), (&[2, 1][..], &[2, 1][..])); // CT, then GC
    /// # Ok::<(), corrivume::Error>(())
    /// ```
    pub fn index(&self, p: usize) -> Result<Index, Error> {
        let n = self.weights.len();
        // Beyond 8 the call refuses p before it looks at a table.
        let before = if p <= 8 { (1 << (2 * p)) + 1 } else { 0 };
        let (mut firsts, mut positions, mut numbers) = (vec![0; n], vec![0; n], vec![0; n]);
        let (mut before, mut work) = (vec![0; before], vec![0; 4 * n]);
        let [stretches, ..] = call(|a| {
            let (l, e, w) = (&self.letters, &self.ends, &self.weights);
            let (f, q, c) = (&mut firsts, &mut positions, &mut numbers);
            raw::index(self.k, p, l, e, w, f, q, c, &mut before, &mut work, a)
        })?;
        for table in [&mut firsts, &mut positions, &mut numbers] {
            table.truncate(stretches);
            table.shrink_to_fit();
        }
        Ok(Index { p, firsts, positions, numbers, before })
    }

    /// The length of a word.
    pub fn k(&self) -> usize {
        self.k
    }

    /// All letters, strings end to end.
    pub fn letters(&self) -> &[u8] {
        &self.letters
    }

    /// For each string the number of letters up to its end.
    pub fn ends(&self) -> &[u32] {
        &self.ends
    }

    /// The weight of each k-mer, by handle.
    pub fn weights(&self) -> &[u32] {
        &self.weights
    }

    /// The number of strings, m.
    pub fn strings(&self) -> usize {
        self.ends.len()
    }

    /// The number of k-mers, n.
    pub fn kmers(&self) -> usize {
        self.weights.len()
    }
}

/// The runs of a collection's weights: for each its weight and its first handle.
#[derive(Clone, Debug, PartialEq, Eq)]
pub struct RunList {
    weights: Vec<u32>,
    firsts: Vec<u32>,
    n: usize,
}

impl RunList {
    /// WEIGHT of a handle. The call judges the whole list each time, so it takes time in proportion to the runs.
    ///
    /// ```
    /// let runs = corrivume::Collection::new(3, *b"AAACC", [5], [2, 2, 5])?.runs()?;
    /// assert_eq!((runs.weight(2)?, runs.weight(3)?), (2, 5));
    /// assert_eq!(runs.weight(4).unwrap_err().number(), 9);
    /// # Ok::<(), corrivume::Error>(())
    /// ```
    pub fn weight(&self, handle: usize) -> Result<u32, Error> {
        let [weight, ..] = call(|a| raw::weight(&self.weights, &self.firsts, self.n, handle, a))?;
        Ok(weight as u32)
    }

    /// How many runs there are.
    pub fn len(&self) -> usize {
        self.weights.len()
    }

    /// Whether there are no runs, as in the empty collection.
    pub fn is_empty(&self) -> bool {
        self.weights.is_empty()
    }

    /// Each run's weight.
    pub fn weights(&self) -> &[u32] {
        &self.weights
    }

    /// Each run's first handle.
    pub fn firsts(&self) -> &[u32] {
        &self.firsts
    }

    /// Each run's weight and first handle.
    pub fn iter(&self) -> impl Iterator<Item = (u32, u32)> + '_ {
        self.weights.iter().copied().zip(self.firsts.iter().copied())
    }
}

/// The stretches of a collection, by minimizer and then by handle.
#[derive(Clone, Debug, PartialEq, Eq)]
pub struct Index {
    p: usize,
    firsts: Vec<u32>,
    positions: Vec<u32>,
    numbers: Vec<u32>,
    before: Vec<u32>,
}

/// What QUICK says about a word.
#[derive(Clone, Copy, Debug, PartialEq, Eq, Hash)]
pub enum Answer {
    /// The word stands in the collection.
    Found(Found),
    /// It doesn't.
    Absent {
        /// How many k-mers were compared.
        compared: u64,
    },
}

/// Where a word was found.
#[derive(Clone, Copy, Debug, PartialEq, Eq, Hash)]
pub struct Found {
    /// The k-mer's handle, from 1.
    pub handle: usize,
    /// Whether it stands there as asked or turned.
    pub side: Side,
    /// How many k-mers were compared.
    pub compared: u64,
}

impl Index {
    /// QUICK question: where the word stands in the collection that this index was made of.
    ///
    /// The index holds no letters. With another collection's the answer is that of the stretches over those letters, or
    /// refusal 10 where they don't fit; [`Dictionary`] keeps the two together.
    ///
    /// ```
    /// use corrivume::{Answer, Collection};
    /// let given = Collection::new(3, *b"GGCTG", [5], [3, 7, 7])?;
    /// let index = given.index(2)?;
    /// let Answer::Found(found) = index.quick(&given, b"CAG")? else { panic!("CTG stands there") };
    /// assert_eq!(found.handle, 3);
    /// assert!(matches!(index.quick(&given, b"CCC")?, Answer::Absent { .. }));
    /// # Ok::<(), corrivume::Error>(())
    /// ```
    pub fn quick(&self, collection: &Collection, word: &[u8]) -> Result<Answer, Error> {
        let (k, letters) = (collection.k, &collection.letters);
        let [handle, turned, compared, _] = call(|a| {
            raw::quick(k, self.p, word, letters, &self.firsts, &self.positions, &self.numbers, &self.before, a)
        })?;
        let compared = compared as u64;
        Ok(match handle {
            0 => Answer::Absent { compared },
            _ => Answer::Found(Found { handle, side: side(turned), compared }),
        })
    }

    /// The length of a minimizer.
    pub fn p(&self) -> usize {
        self.p
    }

    /// Each stretch's first handle.
    pub fn firsts(&self) -> &[u32] {
        &self.firsts
    }

    /// The position, from 0, of each stretch's first letter.
    pub fn positions(&self) -> &[u32] {
        &self.positions
    }

    /// Each stretch's number of k-mers.
    pub fn numbers(&self) -> &[u32] {
        &self.numbers
    }

    /// How many stretches stand before each minimizer, and last their total.
    pub fn before(&self) -> &[u32] {
        &self.before
    }
}

/// A collection with its index and its run list, ready for questions.
#[derive(Clone, Debug, PartialEq, Eq)]
pub struct Dictionary {
    collection: Collection,
    index: Index,
    runs: RunList,
}

impl Dictionary {
    /// Makes the index, which also looks for repeated words, and the run list. p is 1 to 8 and at most k.
    ///
    /// ```
    /// use corrivume::{Collection, Dictionary};
    /// let twice = Collection::new(3, *b"ACGCGT", [3, 6], [1, 1])?;
    /// assert_eq!(Dictionary::new(twice, 2).unwrap_err().number(), 7);
    /// # Ok::<(), corrivume::Error>(())
    /// ```
    pub fn new(collection: Collection, p: usize) -> Result<Self, Error> {
        let index = collection.index(p)?;
        let runs = collection.runs()?;
        Ok(Dictionary { collection, index, runs })
    }

    /// QUICK question: where the word stands, or `None`.
    ///
    /// ```
    /// use corrivume::{Collection, Dictionary, Side};
    /// let dictionary = Dictionary::new(Collection::new(3, *b"GGCTG", [5], [3, 7, 7])?, 2)?;
    /// let found = dictionary.ask(b"CAG")?.expect("CTG stands there");
    /// assert_eq!((found.handle, found.side), (3, Side::Turned));
    /// assert_eq!(dictionary.ask(b"CCC")?, None);
    /// assert_eq!(dictionary.ask(b"CCN").unwrap_err().number(), 9);
    /// # Ok::<(), corrivume::Error>(())
    /// ```
    pub fn ask(&self, word: &[u8]) -> Result<Option<Found>, Error> {
        Ok(match self.index.quick(&self.collection, word)? {
            Answer::Found(found) => Some(found),
            Answer::Absent { .. } => None,
        })
    }

    /// The weight of a word, or `None` if it is absent. Like [`RunList::weight`] it judges the whole run list each time.
    ///
    /// ```
    /// use corrivume::{Collection, Dictionary};
    /// let dictionary = Dictionary::new(Collection::new(3, *b"GGCTG", [5], [3, 7, 7])?, 2)?;
    /// assert_eq!(dictionary.weight(b"CAG")?, Some(7));
    /// assert_eq!(dictionary.weight(b"CCC")?, None);
    /// # Ok::<(), corrivume::Error>(())
    /// ```
    pub fn weight(&self, word: &[u8]) -> Result<Option<u32>, Error> {
        let (c, i, r) = (&self.collection, &self.index, &self.runs);
        let [there, weight, ..] = call(|a| {
            let (firsts, positions, numbers) = (&i.firsts, &i.positions, &i.numbers);
            raw::weigh(c.k, i.p, word, &c.letters, firsts, positions, numbers, &i.before, &r.weights, &r.firsts, r.n, a)
        })?;
        Ok((there == 1).then_some(weight as u32))
    }

    /// The collection that is asked.
    pub fn collection(&self) -> &Collection {
        &self.collection
    }

    /// Its index.
    pub fn index(&self) -> &Index {
        &self.index
    }

    /// Its run list.
    pub fn runs(&self) -> &RunList {
        &self.runs
    }
}
