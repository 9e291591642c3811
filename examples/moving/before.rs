//! A box that calls moxcms's own functions: a job's densities, one drive for a density, and an inverted table.
use moxcms::{invert_lut, lut_interp_linear16, lut_inverse_interp16};

fn main() {
    let curve = [0, 9000, 30000, 52000, 65535];
    let drives = [0, 20000, 32768, 45000, 65535];

    let densities: Vec<u16> = drives.iter().map(|&drive| lut_interp_linear16(drive, &curve)).collect();
    println!("densities {densities:?}");

    let drive = lut_inverse_interp16(33000, &curve);
    println!("drive {drive}");

    let inverted = invert_lut(&curve, 9);
    println!("inverted {inverted:?}");
}
