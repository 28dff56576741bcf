//! Ranges, narrowed adders and fusion answers of an image's expressions, from
//! struo's own functions.

use crate::module_image::ModuleImage;
use crate::plain::parts::{Asked, adder_widths};
use crate::{ranged, rtl, unchanged, with_big_stack};

/// What the range analysis says of an expression.
#[derive(Clone, Copy, Debug, Eq, PartialEq)]
pub struct Ranged {
    /// Least and largest value, of an expression of at most 64 bits.
    pub range: Option<(u64, u64)>,
    /// The width that an Add is narrowed to.
    pub adder_width: Option<usize>,
    /// Whether it is the rows of request Q-5 that give it this width.
    pub by_rows: bool,
}

/// What the fusion says of two expressions.
#[derive(Clone, Copy, Debug, Eq, PartialEq)]
pub struct Fused {
    /// Whether the first is zero.
    pub is_zero: bool,
    /// The expression whose bit 0 is the carry that the first can be.
    pub carry: Option<u32>,
    /// The operands and the carry of an Add of both.
    pub fusion: Option<[u32; 3]>,
}

/// Asks of each expression, and of pairs, of an image that passes the checks.
///
/// # Errors
///
/// Returns why struo cannot build a module of the image.
pub fn expressions(
    image: &[u8],
    pairs: &[[u32; 2]],
) -> Result<(Vec<Ranged>, Vec<Fused>), String> {
    let module = rtl::module(&ModuleImage::decode(image)?)?;
    let (widths, ranges) = ranged::adder_widths(&module);
    assert_eq!(widths, adder_widths(&module), "the patch changes no width");
    let without_rows = unchanged::parts::adder_widths(&module);
    let rows = ranges.into_iter().zip(widths).zip(without_rows);
    let rows = rows.map(|((range, adder_width), without)| Ranged {
        range,
        adder_width,
        by_rows: adder_width != without,
    });
    let fused = with_big_stack(|| {
        let mut asked = Asked::new(&module);
        let pairs = pairs.iter();
        pairs
            .map(|&[lhs, rhs]| Fused {
                is_zero: asked.is_zero(lhs),
                carry: asked.carry(lhs),
                fusion: asked.fusion(lhs, rhs),
            })
            .collect()
    });
    Ok((rows.collect(), fused))
}
