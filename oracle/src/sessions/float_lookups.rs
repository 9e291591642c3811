//! The lookup in floats, and the passthrough table.

use super::on_tables::many;
use crate::floats::{CORNERS_32, input_32, list_32, steps_32};
use crate::generator::Generator;
use crate::routines;
use crate::tables::{LARGE_LENGTHS, SMALL_LENGTHS, TOO_LONG};
use crate::transcript::Transcript;

pub fn lists(t: &mut Transcript, g: &mut Generator, until: u64) {
    let part = until - t.asked();
    t.floats(&[0, 1]);
    routines::flookup(t, &[0, 1], &[0x3f00_0000]);
    refused(t, g);
    let after_short = t.asked() + part / 4;
    short_lists(t, after_short);
    let after_long = t.asked() + part * 3 / 10;
    let questions = (part / 64).clamp(16, 4096) as usize;
    for turn in 0..64 {
        if turn < LARGE_LENGTHS.len() || t.asked() < after_long {
            let length = LARGE_LENGTHS[turn % LARGE_LENGTHS.len()];
            let list = if t.brief { steps_32(g, length) } else { list_32(g, length) };
            ask(t, g, &list, questions);
        }
    }
    let mut turn = 0;
    while t.asked() < until {
        let length = SMALL_LENGTHS[turn % SMALL_LENGTHS.len()];
        let list = list_32(g, length);
        ask(t, g, &list, 16 + length / 16);
        turn += 1;
    }
}

fn ask(t: &mut Transcript, g: &mut Generator, list: &[u32], questions: usize) {
    t.floats(list);
    routines::flookup(t, list, &many(questions, || input_32(g, list.len())));
}

/// No floats, and one too many.
fn refused(t: &mut Transcript, g: &mut Generator) {
    for length in [0, TOO_LONG] {
        let list = steps_32(g, length);
        t.floats(&list);
        routines::flookup(t, &list, &CORNERS_32);
    }
}

/// Entries of the short lists: both zeros, the smallest number, ordinary ones, the largest, an infinity and a NaN.
const LETTERS: [u32; 9] = [
    0x0000_0000,
    0x8000_0000,
    0x0000_0001,
    0x3e99_999a,
    0x3f80_0000,
    0xbf80_0000,
    0x7f7f_ffff,
    0x7f80_0000,
    0x7fc0_0000,
];

/// Every list of one, two and three letters, at every corner, or as many of them as there is room for.
fn short_lists(t: &mut Transcript, until: u64) {
    let count = LETTERS.len();
    let lists = count + count * count + count * count * count;
    let mut inputs = CORNERS_32.to_vec();
    inputs.extend([0x8000_0000, 0xbf80_0000, 0xff80_0000]);
    for number in 0..lists {
        if t.asked() >= until {
            return;
        }
        let list = short_list(number * 101 % lists);
        t.floats(&list);
        routines::flookup(t, &list, &inputs);
    }
}

fn short_list(number: usize) -> Vec<u32> {
    let count = LETTERS.len();
    let mut rest = number;
    let mut length = 1;
    while rest >= count.pow(length) {
        rest -= count.pow(length);
        length += 1;
    }
    (0..length).map(|place| LETTERS[rest / count.pow(place) % count]).collect()
}

pub fn passthrough(t: &mut Transcript, g: &mut Generator, until: u64) {
    for length in [0, 1, 2, 3, 17, 256, TOO_LONG] {
        routines::passthrough(t, length);
    }
    for length in [65536, 65535, 32769, 4096] {
        if length as u64 <= until.saturating_sub(t.asked()) / 2 {
            routines::passthrough(t, length);
        }
    }
    while t.asked() < until {
        routines::passthrough(t, g.between(2, 700));
    }
}
