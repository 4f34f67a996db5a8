//! The calls over lent tables, one for one as the C header has them. Nothing is allocated.
//!
//! Each call returns 0 when done, with its answers in the first entries of `answer`, or the number of a refusal, with the
//! place in `answer[0]` and all else as it was. `answer` needs [`ANSWER`] entries; with fewer a call returns 1 and writes
//! nothing.
//!
//! All unsafe code of the package stands here, and it is the same step each time: a slice is passed as its pointer and its
//! length. That is sound because the library reads and writes only inside the lengths it is given, keeps no pointer, and
//! accepts every content; and because the borrow rules already keep a filled table apart from all the others.
#![allow(unsafe_code, clippy::too_many_arguments)]

/// How many entries the answer table needs, for every call.
pub const ANSWER: usize = 4;

unsafe extern "C" {
    fn corrivume_read(
        sheet: *const u8, sheet_count: usize, letters: *mut u8, letters_count: usize, ends: *mut u32,
        ends_count: usize, weights: *mut u32, weights_count: usize, answer: *mut u64, answer_count: usize,
    ) -> u32;
    fn corrivume_write(
        k: usize, letters: *const u8, letters_count: usize, ends: *const u32, ends_count: usize, weights: *const u32,
        weights_count: usize, sheet: *mut u8, sheet_count: usize, answer: *mut u64, answer_count: usize,
    ) -> u32;
    fn corrivume_check(
        k: usize, letters: *const u8, letters_count: usize, ends: *const u32, ends_count: usize, weights: *const u32,
        weights_count: usize, work: *mut u32, work_count: usize, answer: *mut u64, answer_count: usize,
    ) -> u32;
    fn corrivume_cover(
        k: usize, letters: *const u8, letters_count: usize, ends: *const u32, ends_count: usize, weights: *const u32,
        weights_count: usize, places: *mut i32, places_count: usize, work: *mut u32, work_count: usize,
        answer: *mut u64, answer_count: usize,
    ) -> u32;
    fn corrivume_apply(
        k: usize, letters: *const u8, letters_count: usize, ends: *const u32, ends_count: usize, weights: *const u32,
        weights_count: usize, places: *const i32, places_count: usize, new_letters: *mut u8, new_letters_count: usize,
        new_ends: *mut u32, new_ends_count: usize, new_weights: *mut u32, new_weights_count: usize, work: *mut u32,
        work_count: usize, answer: *mut u64, answer_count: usize,
    ) -> u32;
    fn corrivume_runs(
        k: usize, letters: *const u8, letters_count: usize, ends: *const u32, ends_count: usize, weights: *const u32,
        weights_count: usize, run_weights: *mut u32, run_weights_count: usize, run_firsts: *mut u32,
        run_firsts_count: usize, answer: *mut u64, answer_count: usize,
    ) -> u32;
    fn corrivume_weight(
        run_weights: *const u32, run_weights_count: usize, run_firsts: *const u32, run_firsts_count: usize, n: usize,
        handle: usize, answer: *mut u64, answer_count: usize,
    ) -> u32;
    fn corrivume_access(
        k: usize, letters: *const u8, letters_count: usize, ends: *const u32, ends_count: usize, handle: usize,
        answer: *mut u64, answer_count: usize,
    ) -> u32;
    fn corrivume_plain(
        k: usize, letters: *const u8, letters_count: usize, ends: *const u32, ends_count: usize, weights: *const u32,
        weights_count: usize, word: *const u8, word_count: usize, answer: *mut u64, answer_count: usize,
    ) -> u32;
    fn corrivume_index(
        k: usize, p: usize, letters: *const u8, letters_count: usize, ends: *const u32, ends_count: usize,
        weights: *const u32, weights_count: usize, firsts: *mut u32, firsts_count: usize, positions: *mut u32,
        positions_count: usize, numbers: *mut u32, numbers_count: usize, before: *mut u32, before_count: usize,
        work: *mut u32, work_count: usize, answer: *mut u64, answer_count: usize,
    ) -> u32;
    fn corrivume_quick(
        k: usize, p: usize, word: *const u8, word_count: usize, letters: *const u8, letters_count: usize,
        firsts: *const u32, firsts_count: usize, positions: *const u32, positions_count: usize, numbers: *const u32,
        numbers_count: usize, before: *const u32, before_count: usize, answer: *mut u64, answer_count: usize,
    ) -> u32;
    fn corrivume_weigh(
        k: usize, p: usize, word: *const u8, word_count: usize, letters: *const u8, letters_count: usize,
        firsts: *const u32, firsts_count: usize, positions: *const u32, positions_count: usize, numbers: *const u32,
        numbers_count: usize, before: *const u32, before_count: usize, run_weights: *const u32,
        run_weights_count: usize, run_firsts: *const u32, run_firsts_count: usize, n: usize, answer: *mut u64,
        answer_count: usize,
    ) -> u32;
}

/// READ: a sheet's k, letters, ends and weights. A sheet of b bytes needs at most b entries in each table.
/// `answer`: k, letters, ends, weights (how many were filled in each).
/// Refusals: 11, 2, 11, 3, 1.
pub fn read(sheet: &[u8], letters: &mut [u8], ends: &mut [u32], weights: &mut [u32], answer: &mut [u64]) -> u32 {
    // SAFETY: see the module's first lines.
    unsafe {
        corrivume_read(
            sheet.as_ptr(),
            sheet.len(),
            letters.as_mut_ptr(),
            letters.len(),
            ends.as_mut_ptr(),
            ends.len(),
            weights.as_mut_ptr(),
            weights.len(),
            answer.as_mut_ptr(),
            answer.len(),
        )
    }
}

/// WRITE: a collection's sheet. At most 5 + 3m + N + 9n bytes.
/// `answer`: bytes.
/// Refusals: 2 to 6, 1.
pub fn write(k: usize, letters: &[u8], ends: &[u32], weights: &[u32], sheet: &mut [u8], answer: &mut [u64]) -> u32 {
    // SAFETY: see the module's first lines.
    unsafe {
        corrivume_write(
            k,
            letters.as_ptr(),
            letters.len(),
            ends.as_ptr(),
            ends.len(),
            weights.as_ptr(),
            weights.len(),
            sheet.as_mut_ptr(),
            sheet.len(),
            answer.as_mut_ptr(),
            answer.len(),
        )
    }
}

/// CHECK: whether the collection is good and no word in it repeats, turned or not.
/// `work`: 4n.
/// `answer`: k-mers.
/// Refusals: 2 to 6, 1, 7.
pub fn check(k: usize, letters: &[u8], ends: &[u32], weights: &[u32], work: &mut [u32], answer: &mut [u64]) -> u32 {
    // SAFETY: see the module's first lines.
    unsafe {
        corrivume_check(
            k,
            letters.as_ptr(),
            letters.len(),
            ends.as_ptr(),
            ends.len(),
            weights.as_ptr(),
            weights.len(),
            work.as_mut_ptr(),
            work.len(),
            answer.as_mut_ptr(),
            answer.len(),
        )
    }
}

/// COVER: signed places with the least number of runs. places: m, one for each string, from 1 to m, negative if the string is turned.
/// `work`: 16m.
/// `answer`: paths, places (how many were filled).
/// Refusals: 2 to 6, 1.
pub fn cover(
    k: usize, letters: &[u8], ends: &[u32], weights: &[u32], places: &mut [i32], work: &mut [u32], answer: &mut [u64],
) -> u32 {
    // SAFETY: see the module's first lines.
    unsafe {
        corrivume_cover(
            k,
            letters.as_ptr(),
            letters.len(),
            ends.as_ptr(),
            ends.len(),
            weights.as_ptr(),
            weights.len(),
            places.as_mut_ptr(),
            places.len(),
            work.as_mut_ptr(),
            work.len(),
            answer.as_mut_ptr(),
            answer.len(),
        )
    }
}

/// APPLY: the collection with each string at its place, turned where the place is negative, its weights turned with it. new_letters: N, new_ends: m, new_weights: n,
/// `work`: m.
/// `answer`: letters, ends, weights.
/// Refusals: 2 to 6, 1, 8.
pub fn apply(
    k: usize, letters: &[u8], ends: &[u32], weights: &[u32], places: &[i32], new_letters: &mut [u8],
    new_ends: &mut [u32], new_weights: &mut [u32], work: &mut [u32], answer: &mut [u64],
) -> u32 {
    // SAFETY: see the module's first lines.
    unsafe {
        corrivume_apply(
            k,
            letters.as_ptr(),
            letters.len(),
            ends.as_ptr(),
            ends.len(),
            weights.as_ptr(),
            weights.len(),
            places.as_ptr(),
            places.len(),
            new_letters.as_mut_ptr(),
            new_letters.len(),
            new_ends.as_mut_ptr(),
            new_ends.len(),
            new_weights.as_mut_ptr(),
            new_weights.len(),
            work.as_mut_ptr(),
            work.len(),
            answer.as_mut_ptr(),
            answer.len(),
        )
    }
}

/// RUNS: each run's weight and first handle. Each table: as many entries as there are runs, at most n.
/// `answer`: runs.
/// Refusals: 2 to 6, 1.
pub fn runs(
    k: usize, letters: &[u8], ends: &[u32], weights: &[u32], run_weights: &mut [u32], run_firsts: &mut [u32],
    answer: &mut [u64],
) -> u32 {
    // SAFETY: see the module's first lines.
    unsafe {
        corrivume_runs(
            k,
            letters.as_ptr(),
            letters.len(),
            ends.as_ptr(),
            ends.len(),
            weights.as_ptr(),
            weights.len(),
            run_weights.as_mut_ptr(),
            run_weights.len(),
            run_firsts.as_mut_ptr(),
            run_firsts.len(),
            answer.as_mut_ptr(),
            answer.len(),
        )
    }
}

/// WEIGHT of a handle, by the run list of n k-mers.
/// `answer`: weight.
/// Refusals: 12, 9.
pub fn weight(run_weights: &[u32], run_firsts: &[u32], n: usize, handle: usize, answer: &mut [u64]) -> u32 {
    // SAFETY: see the module's first lines.
    unsafe {
        corrivume_weight(
            run_weights.as_ptr(),
            run_weights.len(),
            run_firsts.as_ptr(),
            run_firsts.len(),
            n,
            handle,
            answer.as_mut_ptr(),
            answer.len(),
        )
    }
}

/// ACCESS: where the k letters of a handle stand in the letters. Letters are not judged and there are no weights.
/// `answer`: position of the first letter (from 0), k.
/// Refusals: 2, 3, 4, 9.
pub fn access(k: usize, letters: &[u8], ends: &[u32], handle: usize, answer: &mut [u64]) -> u32 {
    // SAFETY: see the module's first lines.
    unsafe {
        corrivume_access(
            k,
            letters.as_ptr(),
            letters.len(),
            ends.as_ptr(),
            ends.len(),
            handle,
            answer.as_mut_ptr(),
            answer.len(),
        )
    }
}

/// PLAIN question, by a scan of the collection: the lowest handle of an equal word as asked, else of an equal turned word.
/// `answer`: handle (0 if absent), side (0 as asked, 1 turned).
/// Refusals: 2 to 6, 9.
pub fn plain(k: usize, letters: &[u8], ends: &[u32], weights: &[u32], word: &[u8], answer: &mut [u64]) -> u32 {
    // SAFETY: see the module's first lines.
    unsafe {
        corrivume_plain(
            k,
            letters.as_ptr(),
            letters.len(),
            ends.as_ptr(),
            ends.len(),
            weights.as_ptr(),
            weights.len(),
            word.as_ptr(),
            word.len(),
            answer.as_mut_ptr(),
            answer.len(),
        )
    }
}

/// INDEX, by minimizers of p letters; p is 1 to 8 and at most k. firsts, positions and numbers hold, per stretch, its first handle, the position of its first letter and its number of k-mers: as many entries as there are stretches, at most n. before: 4^p + 1.
/// `work`: 4n.
/// `answer`: stretches, entries of before.
/// Refusals: 2 to 6, 1, 7.
pub fn index(
    k: usize, p: usize, letters: &[u8], ends: &[u32], weights: &[u32], firsts: &mut [u32], positions: &mut [u32],
    numbers: &mut [u32], before: &mut [u32], work: &mut [u32], answer: &mut [u64],
) -> u32 {
    // SAFETY: see the module's first lines.
    unsafe {
        corrivume_index(
            k,
            p,
            letters.as_ptr(),
            letters.len(),
            ends.as_ptr(),
            ends.len(),
            weights.as_ptr(),
            weights.len(),
            firsts.as_mut_ptr(),
            firsts.len(),
            positions.as_mut_ptr(),
            positions.len(),
            numbers.as_mut_ptr(),
            numbers.len(),
            before.as_mut_ptr(),
            before.len(),
            work.as_mut_ptr(),
            work.len(),
            answer.as_mut_ptr(),
            answer.len(),
        )
    }
}

/// QUICK question, by the index. The three tables have the length that INDEX answered, before has 4^p + 1.
/// `answer`: handle (0 if absent), side (0 as asked, 1 turned), how many k-mers were compared.
/// Refusals: 2, 3, 9, 10.
pub fn quick(
    k: usize, p: usize, word: &[u8], letters: &[u8], firsts: &[u32], positions: &[u32], numbers: &[u32],
    before: &[u32], answer: &mut [u64],
) -> u32 {
    // SAFETY: see the module's first lines.
    unsafe {
        corrivume_quick(
            k,
            p,
            word.as_ptr(),
            word.len(),
            letters.as_ptr(),
            letters.len(),
            firsts.as_ptr(),
            firsts.len(),
            positions.as_ptr(),
            positions.len(),
            numbers.as_ptr(),
            numbers.len(),
            before.as_ptr(),
            before.len(),
            answer.as_mut_ptr(),
            answer.len(),
        )
    }
}

/// The weight of a word: QUICK, then WEIGHT of the handle found, by the run list of n k-mers.
/// `answer`: 1 and the weight; 0 and 0 if absent.
/// Refusals: 2, 3, 9, 10; then, if found, 12, 9.
pub fn weigh(
    k: usize, p: usize, word: &[u8], letters: &[u8], firsts: &[u32], positions: &[u32], numbers: &[u32],
    before: &[u32], run_weights: &[u32], run_firsts: &[u32], n: usize, answer: &mut [u64],
) -> u32 {
    // SAFETY: see the module's first lines.
    unsafe {
        corrivume_weigh(
            k,
            p,
            word.as_ptr(),
            word.len(),
            letters.as_ptr(),
            letters.len(),
            firsts.as_ptr(),
            firsts.len(),
            positions.as_ptr(),
            positions.len(),
            numbers.as_ptr(),
            numbers.len(),
            before.as_ptr(),
            before.len(),
            run_weights.as_ptr(),
            run_weights.len(),
            run_firsts.as_ptr(),
            run_firsts.len(),
            n,
            answer.as_mut_ptr(),
            answer.len(),
        )
    }
}
