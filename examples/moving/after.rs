//! The same box, moved: the same answers, from buffers that it lends, and a refusal where moxcms would panic.
use brassgroat::{Density, Refusal, invert_lut, lut_interp_linear16_row, lut_inverse_interp16};

fn main() -> Result<(), Refusal> {
    let curve = [0, 9000, 30000, 52000, 65535];
    let drives = [0, 20000, 32768, 45000, 65535];

    let mut densities = [0; 5];
    lut_interp_linear16_row(&curve, &drives, &mut densities)?;
    println!("densities {densities:?}");

    let drive = lut_inverse_interp16(&curve, Density(33000))?;
    println!("drive {}", drive.0);

    let mut inverted = [0; 9];
    invert_lut(&curve, &mut inverted)?;
    println!("inverted {inverted:?}");
    Ok(())
}
