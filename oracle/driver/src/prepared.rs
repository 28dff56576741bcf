//! struo's lowering of a module that stands ready, so that it can be timed alone.

use crate::module_image::ModuleImage;
use crate::plain::{SynthesisError, inside};
use crate::rtl;

/// struo's RTL module of an image.
pub struct Prepared(struo_rtl::Module);

/// What `Lowering::lower` gave; held only so that its end can be put off.
pub struct Lowered {
    /// The netlist, or struo's error.
    pub outcome: Result<struo_ir::Netlist, SynthesisError>,
}

impl Prepared {
    /// The module of an image that passes checks 3 and 4.
    ///
    /// # Errors
    /// Where struo's constructors refuse the image.
    pub fn new(image: &[u8]) -> Result<Self, String> {
        let image = ModuleImage::decode(image)?;
        rtl::module(&image).map(Prepared)
    }

    /// `Lowering::new` and `Lowering::lower`, with the rows of request Q-5.
    #[must_use]
    pub fn lower(&self) -> Lowered {
        Lowered {
            outcome: inside::run(&self.0, false, |_| ()),
        }
    }
}
