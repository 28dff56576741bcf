//! Whether a netlist is an image's.

use std::collections::BTreeSet;

use image::netlist::Netlist;
use image::Image;

/// The netlist has the image's ports, registers and memories.
///
/// # Errors
///
/// Says that it has not.
pub fn check_fit(netlist: &Netlist, image: &Image) -> Result<(), String> {
    let signals = (0..)
        .zip(&image.signals)
        .filter(|(_, signal)| signal[3] != 0);
    let expected: BTreeSet<_> = signals
        .map(|(number, s)| (number, s[2] as usize, s[3] == 1))
        .collect();
    let found: BTreeSet<_> = netlist
        .ports
        .iter()
        .map(|p| (p.signal, p.nets.len(), p.input))
        .collect();
    let targets = image.registers.iter().map(|register| register[2]);
    let widths: Vec<u32> = targets
        .map(|signal| image.signals[signal as usize][2])
        .collect();
    if expected != found
        || netlist.register_widths() != widths
        || netlist.memories.len() != image.memories.len()
    {
        return Err("the image is not the one of this netlist".to_string());
    }
    Ok(())
}
