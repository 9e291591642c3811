//! A morning at the lab, in Rust: a curve arrives as an ICC tag, the operator nudges a point, overshoots and takes that
//! back, the day's jobs read the curve, and it goes back into a tag. It prints what examples/curve.c does. In the
//! crate's folder, once the archive is there (in the project: after `rt lib` in its crates/brassgroat):
//!
//! ```text
//! cargo run --example curve
//! ```
use brassgroat::{Density, Drive, Log, Refusal, curv};

fn main() -> Result<(), Refusal> {
    // An archive of another version may have other structs than this crate.
    assert_eq!(brassgroat::version(), brassgroat::VERSION, "the archive's version, and the crate's");

    // The tag: "curv", four zero bytes, how many entries, and the entries, big-endian.
    let tag = *b"curv\0\0\0\0\0\0\0\x05\x00\x00\x23\x28\x75\x30\xcb\x20\xff\xff";

    // Ask how many entries there are, lend a buffer of exactly that many, and read them.
    let n = curv::count(&tag)?;
    let mut table = vec![0; n];
    curv::read(&tag, &mut table)?;
    println!("the tag has {n} entries, the third is {}", table[2]);

    // A curve may be worked on if no entry is below the one before it. The log beside it is empty from here on.
    let mut log = Log::new();
    log.accept(&table)?;

    // The operator nudges the middle. A nudge past a neighbour is refused, and the curve stays in order.
    log.nudge(&mut table, 2, Density(33000))?;
    println!("nudged to {}", table[2]);
    if log.nudge(&mut table, 2, Density(60000)) == Err(Refusal::OutsideNeighbours) {
        println!("60000 is above the next entry: still {}", table[2]);
    }

    // A nudge that went too far is taken back. The log says what stands.
    log.nudge(&mut table, 2, Density(45000))?;
    println!("overshot to {}", table[2]);
    log.take_back(&mut table)?;
    let first = log.standing()[0];
    println!("taken back to {}; what stands is entry {}, from {} to {}", table[2], first.index, first.old, first.new);

    // A drive in, a density out. They are two types, so that neither is taken for the other.
    let half = Drive(32768);
    let density = brassgroat::lut_interp_linear16(&table, half)?;
    println!("drive {} gives density {}", half.0, density.0);

    // And back: the least drive that gives at least a density.
    let least = brassgroat::least_input(&table, density)?;
    println!("density {} is first reached at drive {}", density.0, least.0);

    // A job has many positions: look up a row of them in one call.
    let mut print = [0; 4];
    brassgroat::lut_interp_linear16_row(&table, &[0, 16384, 49152, 65535], &mut print)?;
    println!("the row: {} {} {} {}", print[0], print[1], print[2], print[3]);

    // In the evening the curve goes back into a tag, 12 bytes and two for each entry.
    let mut evening = [0; 22];
    curv::write(&table, &mut evening)?;
    println!("bytes 16 and 17 of the tag: {:02x} {:02x}", evening[16], evening[17]);
    Ok(())
}
