//! Tables that are made so that an answer is decided by its last step, or by one in a thousand.

use super::on_tables::{input, many};
use crate::floats;
use crate::generator::Generator;
use crate::routines::{dlookup, gamma, inverse, invert, lookup, verdicts};
use crate::tables::{self, LARGE_LENGTHS, rising};
use crate::transcript::Transcript;
use moxcms::GAMMA_SIZES;

/// Tables of two entries whose weighted sum at 65534 is a multiple of 65535, or one below or above it.
pub fn whole_numbers(t: &mut Transcript, g: &mut Generator, until: u64) {
    while t.asked() < until {
        let sum = g.between(1, 65533) * 65535 + g.below(3) - 1;
        let table = of_sum(sum, 65534);
        t.table(&table);
        lookup(t, &table, &[65533, 65534, 65535]);
    }
}

/// The two entries whose sum is this, with the weight 1 for the first and this one for the second.
fn of_sum(sum: usize, weight: usize) -> [u16; 2] {
    let entry = |number| u16::try_from(number).expect("a sum within reach of two entries");
    [entry(sum % weight), entry(sum / weight)]
}

/// Tables of two entries whose weighted sum lies where the answer takes its next step, or one below or above it.
pub fn gamma_steps(t: &mut Transcript, g: &mut Generator, until: u64) {
    while t.asked() < until {
        let n = GAMMA_SIZES[g.between(4, GAMMA_SIZES.len() - 2)];
        let cap = n - 1;
        let depth = g.between(1, 16);
        let highest = (1 << depth) - 1;
        let unit = cap * 65535 / highest;
        let sum = g.between(1, highest) * unit - unit / 2 + g.below(3) - 1;
        if sum / (cap - 1) <= 65535 {
            let table = of_sum(sum, cap - 1);
            t.table(&table);
            gamma(t, &table, n, depth, &[cap - 2, cap - 1, cap].map(|input| input as u32));
        }
    }
}

/// The smallest N at which the Rust's u32 sum can overflow, for each depth from 1 to 14.
const FIRST_OVERFLOWS: [usize; 14] =
    [43693, 56176, 61169, 63424, 64498, 65022, 65281, 65410, 65474, 65506, 65522, 65530, 65534, 65536];

/// Tables of large entries, at each depth's first N that can overflow and at the one before it.
pub fn gamma_overflows(t: &mut Transcript, g: &mut Generator, until: u64) {
    while t.asked() < until {
        let length = g.pick(&[1, 2, 3, 20, 257]);
        let lowest = g.pick(&[65535, 65534, 65500, 60000]);
        let table = many(length, || g.between(lowest, 65535) as u16);
        t.table(&table);
        for (depth, n) in (1..).zip(FIRST_OVERFLOWS) {
            for size in [n - 1, n] {
                gamma(t, &table, size, depth, &many(3, || input(g, length, size)));
            }
        }
    }
}

/// Straight tables whose slope lies about 0.01, asked for values a little beyond their ends, where the slope decides.
pub fn slopes(t: &mut Transcript, g: &mut Generator, until: u64) {
    while t.asked() < until {
        let cells = g.between(1, 40);
        let rise = 65535 / (100 * cells) + g.below(2);
        let low = g.between(10, 60000);
        let mut table: Vec<u16> = (0..=cells).map(|i| (low + i * rise) as u16).collect();
        if g.once_in(4) {
            table.reverse();
        }
        t.table(&table);
        inverse(t, &table, &many(8, || near_one(g, [low, low + cells * rise], 10)));
    }
}

fn near_one(g: &mut Generator, numbers: [usize; 2], reach: usize) -> u16 {
    let number = g.pick(&numbers);
    g.near(number, reach)
}

/// Divisors of 65535.
const DIVISORS: [usize; 10] = [3, 5, 15, 17, 51, 85, 255, 257, 771, 1285];

/// Tables with one step, beside an entry that lies at a whole position, asked so that the search ends there. Most of
/// these entries are such as the f64 steps miss: the entry's own position then seems to lie in a cell beside it.
pub fn borders(t: &mut Transcript, g: &mut Generator, until: u64) {
    while t.asked() < until {
        let divisor = g.pick(&DIVISORS);
        let cells = divisor * g.between(1, 1300 / divisor);
        let entry = g.between(1, divisor - 1) * (cells / divisor);
        let position = 65535 * entry / cells;
        let missed = cells as f64 * (position as f64 / 65535.0) != entry as f64;
        if missed || g.once_in(16) {
            let low = g.between(1, 1000);
            let high = g.between(50000, 65534);
            let before = entry + g.below(2);
            let mut table = vec![low as u16; before];
            table.resize(cells + 1, high as u16);
            t.table(&table);
            inverse(t, &table, &many(16, || near_one(g, [low, high], 3)));
        }
    }
}

/// Tables with one steep cell and values for which the exact result there is a half: which way it is rounded is decided
/// by the f64 steps. With d·w cells, where d and then e divide 65535, a cell has 131070/(d·e) parts, and u·w parts from
/// the table's start lie at position e·u/2, a half for an odd u. Each part is so many steps up that no position hits
/// its value.
pub fn halves(t: &mut Transcript, g: &mut Generator, until: u64) {
    while t.asked() < until {
        let d = g.pick(&DIVISORS);
        let w = g.pick(&[1, 2, 3, 4, 7, 11, 13, 19]).min(4096 / d);
        let e = g.pick(&[1, 3, 5, 17, 51, 85, 257, 771, 1285, 4369]);
        let e = if (65535 / d).is_multiple_of(e) { e } else { 1 };
        let parts = 131_070 / d / e;
        let step = g.between(e / (2 * w) + 1, 65535 / parts);
        let steep = g.below(d * w);
        let low = g.below(65536 - parts * step);
        let table = with_steep_cell(g, d * w, steep, [low, low + parts * step]);
        t.table(&table);
        let half = |g: &mut Generator| {
            let odd = ((steep * parts + g.below(parts)) / w) | 1;
            let up = (odd * w).saturating_sub(steep * parts).min(parts);
            (low + up * step) as u16
        };
        inverse(t, &table, &many(16, || half(g)));
    }
}

/// A rising table with these two as the ends of one cell; flat on both sides of it, or not.
fn with_steep_cell(g: &mut Generator, cells: usize, cell: usize, ends: [usize; 2]) -> Vec<u16> {
    let flat = g.once_in(2);
    let [lowest, highest] = if flat { ends } else { [0, 65535] };
    let mut table = many(cell, || g.between(lowest, ends[0]) as u16);
    table.extend(ends.map(|end| end as u16));
    table.extend(many(cells - cell - 1, || g.between(ends[1], highest) as u16));
    table.sort_unstable();
    table
}

/// Runs of zeros at which the Rust's first product fits 32 bits and at which it overflows, and whole tables of them.
const ZEROS: [usize; 6] = [32768, 32769, 32770, 32771, 40000, 65536];

/// Entries before a run of 65535 and one more, likewise for the second product.
const BEFORE_LAST_RUN: [usize; 6] = [2, 32767, 32768, 32769, 32770, 50000];

/// Long tables whose runs of 0 or of 65535 lie about the limits of the Rust's i32 products: each once, then more of
/// them.
pub fn long_runs(t: &mut Transcript, g: &mut Generator, until: u64) {
    let questions = ((until - t.asked()) / 48).clamp(8, 256) as usize;
    for turn in 0..96 {
        if turn >= 24 && t.asked() >= until {
            return;
        }
        let table = with_long_run(g, turn, t.brief);
        t.table(&table);
        inverse(t, &table, &many(questions, || tables::value(g, &table)));
        invert(t, &table, 17);
    }
}

/// The table of this turn: zeros first in the even ones, 65535 last in the odd ones.
fn with_long_run(g: &mut Generator, turn: usize, brief: bool) -> Vec<u16> {
    let length = LARGE_LENGTHS[turn / 2 % LARGE_LENGTHS.len()];
    let mut table = if brief { tables::gentle(g, length) } else { rising(g, length) };
    if turn.is_multiple_of(2) {
        let zeros = ZEROS[turn / 2 % ZEROS.len()].min(length);
        table[..zeros].fill(0);
    } else {
        let before = BEFORE_LAST_RUN[turn / 2 % BEFORE_LAST_RUN.len()].min(length - 3);
        table[before + 1..].fill(65535);
    }
    table
}

/// Inputs for which the sum lies about halfway between two f32s: which of the two it becomes is decided by the f64
/// steps.
pub fn halfway(t: &mut Transcript, g: &mut Generator, until: u64) {
    while t.asked() < until {
        let length = g.pick(&[2, 2, 3, 4, 20, 256]);
        let table = tables::neither(g, length);
        let mut inputs = Vec::new();
        for _ in 0..16 {
            let cell = g.below(length - 1);
            let (first, last) = (f64::from(table[cell]), f64::from(table[cell + 1]));
            let sum = floats::between_f32s(first + f64::from_bits(floats::fraction_64(g)) * (last - first));
            let input = (cell as f64 + (sum - first) / (last - first)) / (length - 1) as f64;
            if (0.0..1.0).contains(&input) {
                inputs.push(floats::beside_64(g, input.to_bits(), 3));
            }
        }
        t.table(&table);
        dlookup(t, &table, &inputs);
    }
}

/// Rising or falling tables with about as many violations as make a twentieth of the length.
pub fn twentieths(t: &mut Transcript, g: &mut Generator, until: u64) {
    while t.asked() < until {
        let length = match g.below(6) {
            0 => g.between(2, 64),
            1 => g.between(1000, 1100),
            _ => 20 * g.between(1, 12) + g.between(0, 2) - 1,
        };
        let violations = (length / 20 + g.below(3)).saturating_sub(1);
        let mut table = with_falls(g, length, violations);
        if g.once_in(2) {
            table.reverse();
        }
        t.table(&table);
        verdicts(t, &table);
    }
}

/// A table that falls in exactly this many places, or in all that it has, and rises or stays in the others.
fn with_falls(g: &mut Generator, length: usize, falls: usize) -> Vec<u16> {
    let mut table = rising(g, length);
    for entry in &mut table {
        *entry = (*entry).max(2000);
    }
    let mut places: Vec<usize> = (1..length).collect();
    for _ in 0..places.len().saturating_sub(falls) {
        let dropped = g.below(places.len());
        places.swap_remove(dropped);
    }
    places.sort_unstable();
    for place in places {
        table[place] = table[place - 1] - 1;
    }
    table
}

/// Tables with a run of about twenty equal entries at either end, of any level.
pub fn twenties(t: &mut Transcript, g: &mut Generator, until: u64) {
    const RUNS: [usize; 7] = [0, 1, 2, 18, 19, 20, 21];
    for run in [19, 20, 21] {
        with_end_runs(t, g, 60, [run, 0]);
        with_end_runs(t, g, 60, [0, run]);
    }
    while t.asked() < until {
        let length = g.pick(&[2, 18, 19, 20, 21, 39, 40, 41, 60, 255]);
        let runs = [g.pick(&RUNS), g.pick(&RUNS)];
        with_end_runs(t, g, length, runs.map(|run| run.min(length)));
    }
}

fn with_end_runs(t: &mut Transcript, g: &mut Generator, length: usize, [head, tail]: [usize; 2]) {
    let mut table = tables::neither(g, length);
    table[..head].fill(g.sixteen_bits());
    table[length - tail..].fill(g.sixteen_bits());
    t.table(&table);
    verdicts(t, &table);
}
