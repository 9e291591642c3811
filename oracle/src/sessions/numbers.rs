//! What needs no table: numbers to floats, parametric curves and their tags.

use super::on_tables::many;
use crate::floats::{CORNERS_64, any_32, any_64};
use crate::generator::Generator;
use crate::routines;
use crate::transcript::Transcript;

/// Questions of one request.
const IN_A_LINE: u64 = 64;

/// Asks questions by their numbers, so many to a request, until there are enough answers.
fn in_lines<Q>(t: &mut Transcript, until: u64, ask: fn(&mut Transcript, &[Q]), mut question: impl FnMut(u64) -> Q) {
    let count = until - t.asked();
    for first in (0..count).step_by(IN_A_LINE as usize) {
        let questions: Vec<Q> = (first..count.min(first + IN_A_LINE)).map(&mut question).collect();
        ask(t, &questions);
    }
}

/// All 65,536 of them where there is room, otherwise an even sample.
pub fn fixed8(t: &mut Transcript, _: &mut Generator, until: u64) {
    let until = until.min(t.asked() + 65536);
    in_lines(t, until, routines::fixed8, |number| (number * 40503) as u16);
}

pub fn narrow(t: &mut Transcript, g: &mut Generator, until: u64) {
    let corners = CORNERS_64.len() as u64;
    in_lines(t, until, routines::narrow, |number| {
        if number < 2 * corners {
            CORNERS_64[(number % corners) as usize] | (number / corners) << 63
        } else {
            any_64(g)
        }
    });
}

/// Raw numbers at the ends and about powers of two, where a float's last bits are dropped.
const RAW_CORNERS: [i32; 13] = [
    0,
    1,
    65535,
    65536,
    65537,
    16_777_215,
    16_777_216,
    16_777_217,
    16_777_219,
    33_554_430,
    33_554_434,
    i32::MAX,
    i32::MIN,
];

pub fn raw(t: &mut Transcript, g: &mut Generator, until: u64) {
    let corners = RAW_CORNERS.len() as u64;
    in_lines(t, until, routines::raw, |number| {
        let corner = RAW_CORNERS[(number % corners) as usize];
        match number / corners {
            0 => corner,
            1 => corner.wrapping_neg(),
            _ => any_raw(g),
        }
    });
}

fn any_raw(g: &mut Generator) -> i32 {
    match g.below(3) {
        0 => g.next() as i32,
        1 => (g.next() as i32) >> g.below(32),
        _ => (1i32 << g.below(31)).wrapping_add(g.below(9) as i32 - 4),
    }
}

/// The fewest curves that are asked about, and the fewest pairs that are compared, however short the run is. Each is a
/// request of its own, and takes groat longer than a list of questions does.
const LEAST: u64 = 200;

/// From 0 to 8 parameters, mostly as many as a curve has.
pub fn param(t: &mut Transcript, g: &mut Generator, until: u64) {
    let until = until.max(t.asked() + LEAST);
    for count in 0..9 {
        routines::param(t, &many(count, || parameter(g)));
    }
    while t.asked() < until {
        let count = if g.once_in(10) { g.pick(&[0, 2, 6, 8]) } else { g.pick(&[1, 3, 3, 4, 4, 5, 7]) };
        routines::param(t, &many(count, || parameter(g)));
    }
}

/// A number such as curves have, or any f32.
fn parameter(g: &mut Generator) -> u32 {
    const USUAL: [f32; 8] = [2.4, 1.0 / 1.055, 0.055 / 1.055, 1.0 / 12.92, 0.04045, 0.0, 1.0, -0.0];
    if g.once_in(2) { g.pick(&USUAL).to_bits() } else { any_32(g) }
}

pub fn compare(t: &mut Transcript, g: &mut Generator, until: u64) {
    let until = until.max(t.asked() + LEAST);
    for pattern in LIMIT - 1..=LIMIT + 1 {
        routines::compare(t, &[pattern], &[0]);
        routines::compare(t, &[0], &[pattern]);
    }
    while t.asked() < until {
        let [src_count, dst_count] = if g.once_in(3) { [g.below(9), g.below(9)] } else { [g.pick(&[5, 7]); 2] };
        let src = many(8, || if g.once_in(4) { any_32(g) } else { parameter(g) });
        let dst: Vec<u32> = src.iter().map(|&pattern| beside(g, pattern)).collect();
        routines::compare(t, &src[..src_count], &dst[..dst_count]);
    }
}

/// The difference up to which two parameters are close.
const LIMIT: u32 = 1e-4f32.to_bits();

/// The same number, or one about a ten-thousandth away, or seldom any.
fn beside(g: &mut Generator, pattern: u32) -> u32 {
    let number = f32::from_bits(pattern);
    let step = f32::from_bits(LIMIT + g.below(9) as u32 - 4);
    match g.below(16) {
        0 => any_32(g),
        _ if number.is_nan() => pattern,
        1..=3 => (number + step).to_bits(),
        4..=6 => (number - step).to_bits(),
        7..=9 => (number + step / 2.0).to_bits(),
        _ => pattern,
    }
}

pub fn para(t: &mut Transcript, g: &mut Generator, until: u64) {
    for function in (0..5).cycle() {
        if t.asked() >= until {
            return;
        }
        let raw = std::array::from_fn(|_| exact_raw(g));
        routines::writepara(t, function, &raw);
    }
}

/// At most 24 bits, anywhere among the 32.
fn exact_raw(g: &mut Generator) -> i32 {
    let bits = (g.next() as i32) >> g.between(8, 31);
    bits << g.below(9)
}
