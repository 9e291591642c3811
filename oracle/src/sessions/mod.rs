//! What is asked, session by session, and how the answers are shared out among them.

mod edges;
mod float_lookups;
mod numbers;
mod on_tables;

use crate::generator::Generator;
use crate::transcript::Transcript;

/// Asks until the transcript has this many answers. A session without a share always asks the same.
type Session = fn(&mut Transcript, &mut Generator, u64);

/// Each session, how many answers it is to have for each thousand that are asked for, and what the transcript says of
/// it. These are 1,039 together, so that a run has some four in a hundred more than it was asked for.
const SESSIONS: [(Session, u64, &str); 25] = [
    (on_tables::corners, 0, "Document 01's numbers, and tables that are known to be caught on one step or another"),
    (on_tables::refusals, 0, "Each refusal and each pair of them: no table, two good ones, and one that is too long"),
    (on_tables::short, 214, "Tables of 1 to 4 entries over 0, 1, 100, 32768, 65534 and 65535"),
    (on_tables::long, 150, "Tables at the limits of what 32 bits hold, and the longest"),
    (on_tables::inverted, 70, "Whole tables inverted, also to lengths whose f64 steps are not exact rounding"),
    (on_tables::empty, 2, "The empty table, which answers its input as an f32"),
    (edges::whole_numbers, 8, "The lookup where its sum is a multiple of 65535, and one beside it"),
    (edges::gamma_steps, 8, "The gamma lookup where its answer takes the next step, and one beside it"),
    (edges::gamma_overflows, 12, "The gamma lookup at the N where its sum can first pass 32 bits, and before it"),
    (edges::slopes, 6, "The inverse about slopes of 0.01, beyond the table's ends"),
    (edges::borders, 14, "The inverse at the position of an entry, which the f64 steps place in a cell beside it"),
    (edges::halves, 14, "The inverse where the exact result is a half"),
    (edges::long_runs, 20, "The inverse about the limits of the Rust's i32 products"),
    (edges::halfway, 14, "The f64 lookup where the sum lies about halfway between two f32s"),
    (edges::twentieths, 5, "Verdicts where about a twentieth of the steps go the other way"),
    (edges::twenties, 5, "Verdicts where about twenty entries at an end are equal"),
    (float_lookups::lists, 100, "The lookup in floats"),
    (float_lookups::passthrough, 30, "Passthrough tables"),
    (numbers::fixed8, 14, "8.8 numbers"),
    (numbers::narrow, 22, "f64 to f32: every class, and what lies at, beside and halfway between f32s"),
    (numbers::raw, 22, "Raw 16.16 numbers"),
    (numbers::param, 25, "Parametric curves"),
    (numbers::compare, 25, "Parameters compared, with differences about 1e-4"),
    (numbers::para, 3, "para tags"),
    (on_tables::random, 256, "Tables of every shape, and of other lengths"),
];

/// Writes this many answers or some more, each session's from a random stream of its own. Some sessions run out of
/// questions, so the last one goes on until there are enough answers.
pub fn write_all(t: &mut Transcript, answers: u64, seed: u64) {
    for (number, (session, share, title)) in SESSIONS.into_iter().enumerate() {
        t.comment(&format!("{title}."));
        let mut g = Generator::new(seed, number as u64 + 1);
        let until = t.asked() + answers * share / 1000;
        let is_last = number + 1 == SESSIONS.len();
        session(t, &mut g, if is_last { until.max(answers) } else { until });
    }
}
