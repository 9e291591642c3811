//! The requests of groat that the Rust can answer: each asks the Rust, and writes what is wanted. Those on a table come
//! after its `table`, and `flookup` after its `floats`.

use crate::ask::{Origin, Wanted, wanted};
use crate::floats::{Double, Float, Single, is_signalling, quieted};
use crate::rules;
use crate::transcript::{Transcript, list};

/// The positions one by one, and then once more as a row.
pub fn lookup(t: &mut Transcript, table: &[u16], positions: &[u16]) {
    let rust = |&position: &u16| moxcms::lut_interp_linear16(position, table);
    let widened = |&position: &u16| widened::lut_interp_linear16(position, table);
    let refusal = rules::sized(table.len());
    t.ask("lookup", positions, |position| wanted(refusal, || rust(position), || widened(position)));
    let row =
        wanted(refusal, || positions.iter().map(rust).collect(), || positions.iter().map(widened).collect::<Vec<_>>());
    t.whole(&format!("row {}", list(positions)), row);
}

pub fn gamma(t: &mut Transcript, table: &[u16], n: usize, depth: usize, inputs: &[u32]) {
    t.ask(&format!("gamma {n} {depth}"), inputs, |&input| {
        wanted(
            rules::gamma(table.len(), n, depth, input as usize),
            || moxcms::lut_interp_linear_gamma_impl(n, depth, input, table),
            || widened::lut_interp_linear_gamma_impl(n, depth, u64::from(input), table),
        )
    });
}

pub fn inverse(t: &mut Transcript, table: &[u16], densities: &[u16]) {
    t.ask("inverse", densities, |&density| {
        wanted(
            rules::sized(table.len()),
            || moxcms::lut_inverse_interp16(density, table),
            || widened::lut_inverse_interp16(density, table),
        )
    });
}

pub fn invert(t: &mut Transcript, table: &[u16], length: usize) {
    let inverted = wanted(
        rules::invert(table.len(), length),
        || moxcms::invert_lut(table, length),
        || widened::invert_lut(table, length),
    );
    t.whole(&format!("invert {length}"), inverted);
}

pub fn dlookup(t: &mut Transcript, table: &[u16], patterns: &[u64]) {
    let inputs: Vec<Double> = patterns.iter().copied().map(Double).collect();
    t.ask("dlookup", &inputs, |&Double(pattern)| {
        let input = f64::from_bits(pattern);
        wanted(
            rules::interp_linear(table.len(), input),
            || Float::of(moxcms::lut_interp_linear(input, table)),
            || Float::of(widened::lut_interp_linear(input, table)),
        )
    });
}

/// Whether the table goes one way, either way, and whether it stands still at an end.
pub fn verdicts(t: &mut Transcript, table: &[u16]) {
    let refusal = rules::not_above(table.len());
    for (direction, rising) in [("rising", true), ("falling", false)] {
        let verdict = wanted(
            refusal,
            || moxcms::is_curve_monotonic(table, rising),
            || widened::is_curve_monotonic(table, rising),
        );
        let told = verdict.map(|(yes, violations)| vec![format!("{} {violations}", yes_or_no(yes))]);
        t.whole(&format!("monotonic {direction}"), told);
    }
    let verdict = wanted(refusal, || moxcms::is_curve_degenerated(table), || widened::is_curve_degenerated(table));
    t.whole("degenerated", verdict.map(|yes| vec![yes_or_no(yes)]));
}

fn yes_or_no(yes: bool) -> &'static str {
    if yes { "yes" } else { "no" }
}

pub fn write(t: &mut Transcript, table: &[u16]) {
    let written = wanted(
        rules::not_above(table.len()),
        || moxcms::write_trc_entry(&moxcms::ToneReprCurve::Lut(table.to_vec())),
        || widened::write_trc_entry(&widened::ToneReprCurve::Lut(table.to_vec())),
    );
    t.written("write", written.map(whole_tag));
}

/// The bytes that the Rust writes, which are as many as it says.
fn whole_tag(written: Option<(Vec<u8>, usize)>) -> Vec<u8> {
    let (bytes, said) = written.expect("the Rust writes every curve that is asked for");
    assert_eq!(bytes.len(), said);
    bytes
}

/// Parameters of each function type.
const COUNTS: [usize; 5] = [1, 3, 4, 5, 7];

/// The Rust writes floats, and the library raw numbers: these are such as an f32 holds exactly.
pub fn writepara(t: &mut Transcript, function: usize, raw: &[i32; 7]) {
    let floats: Vec<f32> = raw[..COUNTS[function]].iter().map(|&number| exactly(number)).collect();
    let written = wanted(
        0,
        || moxcms::write_trc_entry(&moxcms::ToneReprCurve::Parametric(floats.clone())),
        || widened::write_trc_entry(&widened::ToneReprCurve::Parametric(floats.clone())),
    );
    t.written(&format!("writepara {function} {}", list(raw)), written.map(whole_tag));
}

/// The raw number's value, which the f32 is equal to.
fn exactly(raw: i32) -> f32 {
    let exact = f64::from(raw) / 65536.0;
    let float = exact as f32;
    assert_eq!(f64::from(float), exact);
    float
}

/// A signalling NaN is outside: the Rust's `min` reads it as 1 on some processors and hands it on, to be read as 0, on
/// others. The answer is that of the same NaN made quiet, which is 1 everywhere.
pub fn flookup(t: &mut Transcript, entries: &[u32], patterns: &[u32]) {
    let entries: Vec<f32> = entries.iter().copied().map(f32::from_bits).collect();
    let inputs: Vec<Single> = patterns.iter().copied().map(Single).collect();
    t.ask("flookup", &inputs, |&Single(pattern)| {
        let input = f32::from_bits(quieted(pattern));
        let mut answer = wanted(
            rules::sized(entries.len()),
            || Float::of(moxcms::lut_interp_linear_float(input, &entries)),
            || Float::of(widened::lut_interp_linear_float(input, &entries)),
        );
        if is_signalling(pattern) && answer.answer.is_ok() {
            answer.origin = Origin::Widened;
        }
        answer
    });
}

pub fn passthrough(t: &mut Transcript, length: usize) {
    let table = wanted(
        rules::spanned(length),
        || floats(&moxcms::passthrough_table_impl(length)),
        || floats(&widened::passthrough_table_impl(length)),
    );
    t.whole(&format!("passthrough {length}"), table);
}

fn floats(list: &[f32]) -> Vec<Float> {
    list.iter().copied().map(Float::of).collect()
}

pub fn param(t: &mut Transcript, parameters: &[u32]) {
    let floats: Vec<f32> = parameters.iter().copied().map(f32::from_bits).collect();
    let curve = wanted(
        rules::parameters(floats.len()),
        || moxcms::ParametricCurve::new(&floats).map(|c| [c.g, c.a, c.b, c.c, c.d, c.e, c.f].map(Float::of)),
        || widened::ParametricCurve::new(&floats).map(|c| [c.g, c.a, c.b, c.c, c.d, c.e, c.f].map(Float::of)),
    );
    let told = curve.map(|curve| vec![list(&curve.expect("the Rust gives a curve where document 01 does"))]);
    t.whole(&format!("param {}", singles(parameters)), told);
}

pub fn compare(t: &mut Transcript, src: &[u32], dst: &[u32]) {
    let request = format!("compare {} {}", singles(src), singles(dst));
    let [src, dst] = [src, dst].map(|list| list.iter().copied().map(f32::from_bits).collect::<Vec<f32>>());
    let close = wanted(0, || moxcms::compare_parametric(&src, &dst), || widened::compare_parametric(&src, &dst));
    t.whole(&request, close.map(|yes| vec![yes_or_no(yes)]));
}

fn singles(patterns: &[u32]) -> String {
    list(&patterns.iter().copied().map(Single).collect::<Vec<Single>>())
}

/// An answer that there is no other text to ask for.
fn plainly(answer: f32) -> Wanted<Float> {
    Wanted { answer: Ok(Float::of(answer)), origin: Origin::Rust }
}

pub fn fixed8(t: &mut Transcript, numbers: &[u16]) {
    t.ask("fixed8", numbers, |&number| plainly(moxcms::u8_fixed_8number_to_float(number)));
}

pub fn raw(t: &mut Transcript, numbers: &[i32]) {
    t.ask("raw", numbers, |&number| plainly((f64::from(number) / 65536.0) as f32));
}

pub fn narrow(t: &mut Transcript, patterns: &[u64]) {
    let inputs: Vec<Double> = patterns.iter().copied().map(Double).collect();
    t.ask("narrow", &inputs, |&Double(pattern)| plainly(f64::from_bits(pattern) as f32));
}
