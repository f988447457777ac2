//! Sheets at the limits: lengths that no memory holds, which `image` takes as it is lent no pool, and stores as large
//! as the limits. Memory that is never written stays unmapped, so these cost little.

use boundary::{FULL, LIMIT, SHEET};

use super::calls::Calls;
use super::handed::Handed;
use crate::tally::Random;

const MOST_BYTES: usize = 1 << 30;
const MOST_WORDS: usize = 1 << 26;
const WIDE: u64 = 1 << 32;

/// The image of a sheet, and of one that is not well-formed, which comes before a start or an image that is too large.
fn images(calls: &mut Calls, handed: &Handed) {
    calls.image(handed);
    calls.image(&Handed { odd: vec![0], ..handed.clone() });
    calls.image(&Handed { words: [&handed.words[..], &[0]].concat(), ..handed.clone() });
}

/// Starts of strings around 2^32, and sums around 2^64. Constants have wide starts.
fn long_strings(calls: &mut Calls) {
    for length in [WIDE - 2, WIDE - 1, WIDE, WIDE + 1, u64::MAX - 1, u64::MAX] {
        for rows in [&[length][..], &[length, 0], &[length, 1], &[0, length], &[1, length, 0], &[length, length]] {
            images(calls, &Handed::of_lengths(rows, &[]));
            images(calls, &Handed::of_lengths(&[], rows));
            images(calls, &Handed::of_lengths(&[0, 0], rows));
            images(calls, &Handed::of_lengths(rows, &[1]));
        }
    }
}

/// Images around the limit.
fn long_images(calls: &mut Calls) {
    for less in 0..64 {
        calls.image(&Handed::of_lengths(&[MOST_BYTES as u64 - less], &[]));
        calls.image(&Handed::of_lengths(&[], &[MOST_BYTES as u64 - less]));
        calls.image(&Handed::of_lengths(&[5], &[9, MOST_BYTES as u64 / 2 - less, MOST_BYTES as u64 / 2 - 64]));
    }
}

/// The largest string whose image is within the limit.
fn longest() -> u64 {
    let fits = |length: &u64| plain::image(&Handed::of_lengths(&[*length], &[]).sheet()).is_ok();
    (0..=MOST_BYTES as u64).rev().find(fits).expect("a short string fits")
}

/// Pools up to the limit and over it; the first has an image that fits, and no output for it.
fn large_pools(random: &mut Random, calls: &mut Calls) {
    let pool = vec![0; MOST_BYTES + 1];
    let longest = longest();
    let most = MOST_BYTES as u64;
    for (length, size, number) in [
        (longest, longest, FULL),
        (longest + 1, longest + 1, LIMIT),
        (most, most, LIMIT),
        (1, most, SHEET),
        (1, most + 1, LIMIT),
        (most + 1, most + 1, LIMIT),
    ] {
        let sheet = Handed::of_lengths(&[length], &[]).sheet();
        calls.refused_write(random, &sheet, &pool[..size as usize], number);
    }
    calls.refused_write(random, &[0], &pool, LIMIT);
}

/// Sheets up to the limit and over it. They have no contents, and are not well-formed.
fn large_sheets(random: &mut Random, calls: &mut Calls) {
    let sheet = vec![0; 8 * (MOST_WORDS + 1)];
    for (words, number) in [(MOST_WORDS, SHEET), (MOST_WORDS + 1, LIMIT)] {
        let sheet = &sheet[..8 * words];
        calls.refused_image(sheet, number);
        calls.refused_write(random, sheet, &[], number);
    }
}

pub fn compare(random: &mut Random, calls: &mut Calls) {
    long_strings(calls);
    long_images(calls);
    large_pools(random, calls);
    large_sheets(random, calls);
}
