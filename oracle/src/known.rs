//! Answers that are known from elsewhere: document 01's numbers, and corners found by other means. They show that the
//! build is the one that it says it is, plain or fused, and that it panics where the Rust overflows.

use crate::ask::asked;

/// Says which known answers the build does not give; true where there are none.
pub fn known() -> bool {
    let mut wrong = 0;
    let mut right = 0;
    for (what, answer, expected) in integers().into_iter().chain(inverses()).chain(floats()) {
        if answer == expected {
            right += 1;
        } else {
            println!("{what}: {answer}, but {expected} is known");
            wrong += 1;
        }
    }
    println!("{right} known answers given, {wrong} not");
    wrong == 0
}

type Known = (&'static str, String, &'static str);

/// An answer in decimal, or `panic`.
fn told(answer: Option<u16>) -> String {
    answer.map_or("panic".into(), |number| number.to_string())
}

fn hex(answer: f32) -> String {
    format!("{:08x}", answer.to_bits())
}

fn lookup(table: &[u16], position: u16) -> String {
    told(asked(|| moxcms::lut_interp_linear16(position, table)))
}

fn gamma(table: &[u16], n: usize, depth: usize, input: u32) -> String {
    told(asked(|| moxcms::lut_interp_linear_gamma_impl(n, depth, input, table)))
}

fn inverse(table: &[u16], value: u16) -> String {
    told(asked(|| moxcms::lut_inverse_interp16(value, table)))
}

fn widened_inverse(table: &[u16], value: u16) -> String {
    told(asked(|| widened::lut_inverse_interp16(value, table)))
}

/// What a plain build answers, or a fused one.
fn plain_or_fused(plain: &'static str, fused: &'static str) -> &'static str {
    if cfg!(fused) { fused } else { plain }
}

fn integers() -> Vec<Known> {
    let bent = [0, 100, 65535];
    let widened_gamma = asked(|| widened::lut_interp_linear_gamma_impl(43693, 1, 0, &[65535]));
    vec![
        ("lookup in [0, 65535] at 12345", lookup(&[0, 65535], 12345), "12345"),
        ("lookup in [1000] at 65535", lookup(&[1000], 65535), "1000"),
        ("lookup in [0, 100, 65535] at 32767", lookup(&bent, 32767), "99"),
        ("lookup in [0, 100, 65535] at 32768", lookup(&bent, 32768), "100"),
        ("lookup in [65535, 0] at 1", lookup(&[65535, 0], 1), "65534"),
        ("lookup in the empty table", lookup(&[], 0), "panic"),
        ("gamma in [0, 65535], N 2, depth 10, at 1", gamma(&[0, 65535], 2, 10, 1), "1024"),
        ("gamma in [65535], N 43692, depth 1, at 0", gamma(&[65535], 43692, 1, 0), "1"),
        ("gamma in [65535], N 43693, depth 1, at 0", gamma(&[65535], 43693, 1, 0), "panic"),
        ("the same, widened", told(widened_gamma), "1"),
    ]
}

fn inverses() -> Vec<Known> {
    let ramp: Vec<u16> = (0..=65535).collect();
    let mut stepped = vec![5; 12];
    stepped.extend([60000; 74]);
    let mut late = vec![0; 32769];
    late.extend([9, 65535]);
    let mut later = late.clone();
    later.insert(0, 0);
    let mut saturated = vec![1; 32769];
    saturated.extend([65535; 2]);
    let mut more_saturated = saturated.clone();
    more_saturated.insert(0, 1);
    let asked_of_ramp = moxcms::invert_lut(&ramp, 27)[13].to_string();
    let fuses = inverse(&[0, 8286, 24858, 47388], 31617);
    vec![
        ("inverse in [0, 100, 65535] of 0", inverse(&[0, 100, 65535], 0), "255"),
        ("inverse in [65535, 65535] of 7", inverse(&[65535, 65535], 7), "0"),
        ("inverse in [5] of 0", inverse(&[5], 0), "0"),
        ("inverse in [5] of 3", inverse(&[5], 3), "2"),
        ("inverse in [5] of 5", inverse(&[5], 5), "32767"),
        ("inverse in [5] of 9", inverse(&[5], 9), "65535"),
        ("inverse in [0] of 0", inverse(&[0], 0), "32767"),
        ("inverse in [0, 0] of 1", inverse(&[0, 0], 1), "65535"),
        ("inverse in [10, 665] of 5", inverse(&[10, 665], 5), "2"),
        ("inverse in [10, 666] of 5", inverse(&[10, 666], 5), "0"),
        ("inverse in [0, 65535, 65535] of 40000", inverse(&[0, 65535, 65535], 40000), "0"),
        ("inverse in [0, 100, 65535, 65535] of 101", inverse(&[0, 100, 65535, 65535], 101), "21845"),
        ("inverse in twelve 5s and seventy-four 60000s of 6", inverse(&stepped, 6), "8481"),
        ("inverse in 32,769 zeros, 9, 65535 of 65535", inverse(&late, 65535), "65535"),
        ("inverse in 32,770 zeros, 9, 65535 of 65535", inverse(&later, 65535), "panic"),
        ("the same, widened", widened_inverse(&later, 65535), "65535"),
        ("inverse in 32,769 ones and two 65535s of 1", inverse(&saturated, 1), "32765"),
        ("inverse in 32,770 ones and two 65535s of 1", inverse(&more_saturated, 1), "panic"),
        ("entry 13 of 27 inverted from the ramp", asked_of_ramp, "32767"),
        ("inverse in [0, 8286, 24858, 47388] of 31617", fuses, plain_or_fused("50244", "50243")),
    ]
}

fn floats() -> Vec<Known> {
    let tiny = moxcms::lut_interp_linear_float(0.5, &[0.0, f32::from_bits(1)]);
    let input = f64::from_bits(0x3fe9_bd8e_3e7f_2985);
    let narrow = moxcms::lut_interp_linear(input, &[8138, 10735]);
    vec![
        ("float lookup in [0, 2^-149] at 0.5", hex(tiny), plain_or_fused("00000001", "00000000")),
        ("f64 lookup in [8138, 10735]", hex(narrow), plain_or_fused("3e1fcc9e", "3e1fcc9f")),
        ("8.8 fixed point ffff", hex(moxcms::u8_fixed_8number_to_float(0xffff)), "437fff00"),
    ]
}
