//! The tables that are asked about: short ones taken in turn, random ones of every shape, and the lengths at which
//! something changes.

use crate::generator::Generator;

/// Short tables are all those of 1 to 4 entries over these six.
const ALPHABET: [u16; 6] = [0, 1, 100, 32768, 65534, 65535];

/// How many short tables there are: 6 + 36 + 216 + 1296.
pub const SHORT_TABLES: usize = 1554;

/// Lengths of random tables that cost little.
pub const SMALL_LENGTHS: [usize; 25] =
    [1, 2, 2, 3, 3, 4, 5, 9, 16, 19, 20, 21, 22, 39, 40, 41, 52, 86, 255, 256, 257, 1023, 1024, 1025, 4096];

/// Lengths of random tables at the limits of what 32 bits hold, and at the longest that a table may be.
pub const LARGE_LENGTHS: [usize; 8] = [65536, 32772, 32771, 32770, 65535, 32769, 32768, 65534];

/// One entry more than a table may have.
pub const TOO_LONG: usize = 65537;

/// The short table of this number, below `SHORT_TABLES`. The numbers are spread, so that any run of them is a fair
/// sample.
pub fn short_table(number: usize) -> Vec<u16> {
    let mut rest = number * 1009 % SHORT_TABLES;
    let mut length = 1;
    let mut of_this_length = ALPHABET.len();
    while rest >= of_this_length {
        rest -= of_this_length;
        of_this_length *= ALPHABET.len();
        length += 1;
    }
    let mut table = Vec::with_capacity(length);
    for _ in 0..length {
        table.push(ALPHABET[rest % ALPHABET.len()]);
        rest /= ALPHABET.len();
    }
    table
}

type Shape = fn(&mut Generator, usize) -> Vec<u16>;

const SHAPES: [Shape; 11] =
    [rising, ramps, falling, neither, straight, rising, square, steps, gentle, slipping, constant];

/// Shapes that a list of a few items can write, however long the table is.
const BRIEF_SHAPES: [Shape; 4] = [ramps, gentle, steps, constant];

/// A random table, of each shape in its turn, with runs at its ends more often than not.
pub fn random_table(g: &mut Generator, turn: usize, length: usize) -> Vec<u16> {
    with_runs(g, SHAPES[turn % SHAPES.len()], length)
}

/// The same, of a shape that a few items can write.
pub fn brief_table(g: &mut Generator, turn: usize, length: usize) -> Vec<u16> {
    with_runs(g, BRIEF_SHAPES[turn % BRIEF_SHAPES.len()], length)
}

fn with_runs(g: &mut Generator, shape: Shape, length: usize) -> Vec<u16> {
    let mut table = shape(g, length);
    if !g.once_in(3) {
        set_runs(g, &mut table);
    }
    table
}

pub fn rising(g: &mut Generator, length: usize) -> Vec<u16> {
    let mut table = neither(g, length);
    table.sort_unstable();
    table
}

fn falling(g: &mut Generator, length: usize) -> Vec<u16> {
    let mut table = rising(g, length);
    table.reverse();
    table
}

pub fn neither(g: &mut Generator, length: usize) -> Vec<u16> {
    (0..length).map(|_| g.sixteen_bits()).collect()
}

/// From 0 to 65535 in equal steps, rounded down.
fn straight(_: &mut Generator, length: usize) -> Vec<u16> {
    let last = length.saturating_sub(1).max(1);
    (0..length).map(|i| (i * 65535 / last) as u16).collect()
}

/// From 0 to 65535 as the square of the position: the look of a tone curve.
fn square(_: &mut Generator, length: usize) -> Vec<u16> {
    let last = length.saturating_sub(1).max(1);
    (0..length).map(|i| (i * i * 65535 / (last * last)) as u16).collect()
}

/// Entries that rise one by one from some level, then from another.
pub fn ramps(g: &mut Generator, length: usize) -> Vec<u16> {
    let mut table = Vec::with_capacity(length);
    while table.len() < length {
        let held = g.between(1, 200).min(length - table.len());
        let level = g.below(65536 - held) as u16;
        table.extend(level..level + held as u16);
    }
    table
}

/// A few levels, each held for a while.
fn steps(g: &mut Generator, length: usize) -> Vec<u16> {
    let count = g.between(1, 6);
    let levels = rising(g, count);
    (0..length).map(|i| levels[i * levels.len() / length]).collect()
}

/// Rising by so little that the inverse finds slopes below 0.01.
pub fn gentle(g: &mut Generator, length: usize) -> Vec<u16> {
    let span = g.pick(&[3, 40, 700, 5000]);
    let base = g.pick(&[0, 1, 10, 30000, 65535 - span]);
    let mut table: Vec<u16> = (0..length).map(|_| (base + g.below(span + 1)) as u16).collect();
    table.sort_unstable();
    table
}

/// Rising but for a few falls.
fn slipping(g: &mut Generator, length: usize) -> Vec<u16> {
    let mut table = rising(g, length);
    for _ in 0..g.between(1, 1 + length / 16) {
        if length > 1 {
            let at = g.below(length - 1);
            table.swap(at, at + 1);
        }
    }
    table
}

fn constant(g: &mut Generator, length: usize) -> Vec<u16> {
    let level = g.pick(&[0, 1, 32768, 65534, 65535]);
    vec![level; length]
}

/// Sets a run at the head and one at the tail: mostly 0 first and 65535 last, at times any of the two at any end.
fn set_runs(g: &mut Generator, table: &mut [u16]) {
    let length = table.len();
    let lengths = [0, 1, 2, 3, 19, 20, 21, length / 3, length / 2 + 1];
    let head = g.pick(&lengths).min(length);
    let tail = g.pick(&lengths).min(length);
    let usual = !g.once_in(3);
    let first = if usual { 0 } else { g.pick(&[0, 65535]) };
    let last = if usual { 65535 } else { g.pick(&[0, 65535]) };
    table[..head].fill(first);
    table[length - tail..].fill(last);
}

/// A position near the start of a cell of a table of this length, or at an end, or anywhere.
pub fn position(g: &mut Generator, length: usize, last: usize) -> usize {
    match g.below(8) {
        0 => g.pick(&[0, 1, 2, last / 2, last / 2 + 1, last - 1, last]).min(last),
        1..=3 if length > 1 => {
            let cell = g.below(length);
            let start = cell * last / (length - 1);
            (start + g.below(4)).saturating_sub(1).min(last)
        }
        _ => g.below(last + 1),
    }
}

/// A value that is at or near an entry, or between two neighbours, or at an end, or anywhere.
pub fn value(g: &mut Generator, table: &[u16]) -> u16 {
    match g.below(8) {
        0 => g.pick(&[0, 1, 2, 100, 32767, 32768, 65533, 65534, 65535]),
        1..=3 if !table.is_empty() => {
            let entry = g.pick(table);
            g.near(usize::from(entry), 2)
        }
        4..=5 if table.len() > 1 => {
            let at = g.below(table.len() - 1);
            let low = table[at].min(table[at + 1]);
            let high = table[at].max(table[at + 1]);
            g.between(usize::from(low), usize::from(high)) as u16
        }
        _ => g.sixteen_bits(),
    }
}
