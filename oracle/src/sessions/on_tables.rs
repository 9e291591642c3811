//! Tables, and on each of them whatever can be asked of a table.

use crate::floats::{self, CORNERS_64};
use crate::generator::Generator;
use crate::routines::{dlookup, gamma, inverse, invert, lookup, verdicts, write};
use crate::tables::{
    LARGE_LENGTHS, SHORT_TABLES, SMALL_LENGTHS, TOO_LONG, brief_table, position, ramps, random_table, short_table,
    value,
};
use crate::transcript::Transcript;
use moxcms::GAMMA_SIZES;

/// The ends, the middle, and the starts of the cells of 2, 3 and 4 entries with their neighbours.
const POSITIONS: [u16; 14] = [0, 1, 2, 21844, 21845, 21846, 32767, 32768, 43689, 43690, 43691, 65533, 65534, 65535];

/// The ends, and each letter of the short tables with its neighbours.
const DENSITIES: [u16; 14] = [0, 1, 2, 50, 99, 100, 101, 16384, 32767, 32768, 32769, 65533, 65534, 65535];

/// A table, positions to look up and densities to look for.
type Corner = (&'static [u16], &'static [u16], &'static [u16]);

const CORNERS: [Corner; 14] = [
    (&[0, 65535], &[12345], &[12345]),
    (&[1000], &[65535], &[1000]),
    (&[0, 100, 65535], &[32767, 32768], &[0, 100, 65534]),
    (&[65535, 0], &[1], &[65534]),
    (&[65535, 65535], &[7], &[7]),
    (&[5], &[0], &[0, 3, 5, 9]),
    (&[0], &[0], &[0]),
    (&[0, 0], &[1], &[1]),
    (&[10, 665], &[5], &[5]),
    (&[10, 666], &[5], &[5]),
    (&[0, 65535, 65535], &[32767], &[0, 1, 40000, 65535]),
    (&[0, 100, 65535, 65535], &[21845], &[101]),
    (&[0, 8286, 24858, 47388], &[50244], &[31617]),
    (&STEPPED, &[8481], &[6]),
];

/// Twelve 5s, then seventy-four 60000s: the cell in f64 steps is not the exact one.
const STEPPED: [u16; 86] = {
    let mut table = [60000; 86];
    let mut i = 0;
    while i < 12 {
        table[i] = 5;
        i += 1;
    }
    table
};

pub fn corners(t: &mut Transcript, _: &mut Generator, _: u64) {
    for (table, positions, densities) in CORNERS {
        t.table(table);
        lookup(t, table, positions);
        inverse(t, table, densities);
    }
    t.table(&[0, 65535]);
    gamma(t, &[0, 65535], 2, 10, &[1]);
    t.table(&[65535]);
    gamma(t, &[65535], 43692, 1, &[0]);
    gamma(t, &[65535], 43693, 1, &[0]);
    t.table(&[8138, 10735]);
    dlookup(t, &[8138, 10735], &[0x3fe9_bd8e_3e7f_2985]);
    for (first, count, last) in [(0, 32769, [9, 65535]), (0, 32770, [9, 65535]), (1, 32769, TOPS), (1, 32770, TOPS)] {
        let table = [vec![first; count], last.to_vec()].concat();
        t.table(&table);
        inverse(t, &table, &[1, 9, 65535]);
    }
    let ramp: Vec<u16> = (0..=65535).collect();
    t.table(&ramp);
    invert(t, &ramp, 27);
}

/// Two of these at a table's end are a run.
const TOPS: [u16; 2] = [65535; 2];

pub fn refusals(t: &mut Transcript, g: &mut Generator, _: u64) {
    let inside_and_not = CORNERS_64.map(|corner| [corner, corner | 1 << 63]);
    for table in [Vec::new(), vec![1000], vec![0, 100, 65535], ramps(g, TOO_LONG)] {
        t.table(&table);
        lookup(t, &table, &POSITIONS);
        inverse(t, &table, &DENSITIES);
        for n in [0, 1, 2, 65536, 65537] {
            for depth in [0, 1, 16, 17] {
                gamma(t, &table, n, depth, &[0, 1, 2, 3, 65535, 65536, u32::MAX]);
            }
        }
        for length in [0, 1, 2, TOO_LONG] {
            invert(t, &table, length);
        }
        dlookup(t, &table, inside_and_not.as_flattened());
        verdicts(t, &table);
        t.tag(&[0xa5]);
        write(t, &table);
    }
}

pub fn short(t: &mut Transcript, _: &mut Generator, until: u64) {
    let inputs = [0.0, 0.25, 1.0 / 3.0, 0.5, 2.0 / 3.0, 0.75, 0.999, 1.0].map(f64::to_bits);
    for table in (0..SHORT_TABLES).map(short_table) {
        if t.asked() >= until {
            return;
        }
        t.table(&table);
        lookup(t, &table, &POSITIONS);
        inverse(t, &table, &DENSITIES);
        for (n, depth) in [(2, 1), (3, 10), (256, 8), (4096, 12), (65536, 16)] {
            gamma(t, &table, n as usize, depth, &[0, 1, n / 2, n - 1]);
        }
        dlookup(t, &table, &inputs);
        verdicts(t, &table);
        write(t, &table);
    }
}

/// The most large tables that are asked about. Each length is taken once at least, and again while there is room.
const MANY: usize = 64;

pub fn long(t: &mut Transcript, g: &mut Generator, until: u64) {
    let questions = ((until - t.asked()) / 32).clamp(16, 4096) as usize;
    for turn in 0..MANY {
        if turn >= LARGE_LENGTHS.len() && t.asked() >= until {
            return;
        }
        let length = LARGE_LENGTHS[turn % LARGE_LENGTHS.len()];
        let table = if t.brief { brief_table(g, turn, length) } else { random_table(g, turn, length) };
        everything(t, g, &table, questions);
    }
}

pub fn random(t: &mut Transcript, g: &mut Generator, until: u64) {
    let mut turn = 0;
    while t.asked() < until {
        let length = SMALL_LENGTHS[turn % SMALL_LENGTHS.len()];
        let table = random_table(g, turn, length);
        everything(t, g, &table, 16 + length / 16);
        turn += 1;
    }
}

/// Inputs of each gamma lookup that is asked of a random table.
const INPUTS: usize = 4;

/// Whatever can be asked of a table but its inversion, with about this many questions of each kind.
fn everything(t: &mut Transcript, g: &mut Generator, table: &[u16], questions: usize) {
    t.table(table);
    lookup(t, table, &many(questions, || position(g, table.len(), 65535) as u16));
    inverse(t, table, &many(questions + questions / 3, || value(g, table)));
    for _ in 0..questions.div_ceil(INPUTS) {
        let n = size(g);
        let depth = depth(g);
        gamma(t, table, n, depth, &many(INPUTS, || input(g, table.len(), n)));
    }
    let any_or_inside = |g: &mut Generator| {
        if g.once_in(24) { floats::any_64(g) } else { floats::inside_64(g, table.len()) }
    };
    dlookup(t, table, &many(questions / 2, || any_or_inside(g)));
    verdicts(t, table);
    if table.len() <= 4096 || !t.brief {
        write(t, table);
    }
}

/// So many questions.
pub fn many<Q>(count: usize, question: impl FnMut() -> Q) -> Vec<Q> {
    std::iter::repeat_with(question).take(count).collect()
}

/// An N in the range, with the two largest at times and those outside it seldom.
fn size(g: &mut Generator) -> usize {
    if g.once_in(64) {
        g.pick(&[0, 1, 65537])
    } else if g.once_in(4) {
        g.pick(&[65535, 65536])
    } else {
        GAMMA_SIZES[g.between(2, GAMMA_SIZES.len() - 2)]
    }
}

fn depth(g: &mut Generator) -> usize {
    if g.once_in(64) { g.pick(&[0, 17]) } else { g.between(1, 16) }
}

pub fn input(g: &mut Generator, length: usize, n: usize) -> u32 {
    if g.once_in(64) {
        (n + g.pick(&[0, 1, 2, n, 65536])) as u32
    } else if g.once_in(512) {
        u32::MAX
    } else {
        position(g, length, n.saturating_sub(1).max(1)) as u32
    }
}

pub fn inverted(t: &mut Transcript, g: &mut Generator, until: u64) {
    let mut turn = 0;
    while t.asked() < until {
        let is_large = turn % 8 == 5 && !t.brief;
        let length = if is_large { LARGE_LENGTHS[turn / 8 % LARGE_LENGTHS.len()] } else { g.pick(&SMALL_LENGTHS) };
        let table = random_table(g, turn, length);
        t.table(&table);
        invert(t, &table, inverted_length(g, turn, until - t.asked()));
        turn += 1;
    }
}

/// An inverted length. The longest come where they take at most a quarter of what is left.
fn inverted_length(g: &mut Generator, turn: usize, left: u64) -> usize {
    let longest = [65536, 65535, 32769, 16384];
    if turn % 4 == 3 {
        for length in longest {
            if length as u64 <= left / 4 {
                return length;
            }
        }
    }
    if turn % 4 == 1 {
        return off_exact_length(g);
    }
    g.pick(&[2, 3, 4, 5, 17, 27, 52, 103, 255, 256, 257, 1023, 1024])
}

/// A length of which some question in f64 steps is not what exact rounding would ask.
fn off_exact_length(g: &mut Generator) -> usize {
    loop {
        let length = g.between(3, 400);
        let last = length - 1;
        let scale = 65535.0 / last as f64;
        let off = |i: &usize| (*i as f64 * scale + 0.5).floor() as usize != (131_070 * i + last) / (2 * last);
        if (0..length).any(|i| off(&i)) {
            return length;
        }
    }
}

pub fn empty(t: &mut Transcript, g: &mut Generator, until: u64) {
    t.table(&[]);
    while t.asked() < until {
        let inputs = many(64, || {
            let pattern = floats::about_an_f32(g) & !(1 << 63);
            if f64::from_bits(pattern) <= 1.0 { pattern } else { floats::inside_64(g, 0) }
        });
        dlookup(t, &[], &inputs);
    }
}
