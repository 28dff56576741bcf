//! What docs/RULES.md says of a call: the answer, and the words both buffers
//! hold afterwards.

use crate::limits::Limits;
use crate::{Answer, ACCEPTED};
use image::MOST_LIMIT;

/// The end of a lowering call.
pub struct Expected {
    pub answer: Answer,
    /// The netlist buffer's required words; `None` where no buffer is touched.
    pub netlist: Option<Vec<u32>>,
    /// The scratch's required words, all 0, where the buffers are touched.
    pub scratch_required: usize,
}

/// "1 to 5 touch no buffer. After 6 to 10 the netlist buffer's required words
/// are 0. After acceptance they are the image, its unused node and list words
/// 0. The scratch's required words are 0 after 6 to 10 and acceptance."
pub fn after_call(image: &[u8], limits: &Limits) -> Expected {
    let checked = reference::check(image, limits.n, limits.p, limits.netlist_words, limits.scratch_words);
    if checked != ACCEPTED {
        return Expected { answer: checked, netlist: None, scratch_required: 0 };
    }
    let required = reference::netlist_words(limits.n, limits.p);
    let scratch_required = reference::scratch_words(image, limits.n).expect("a checked image");
    let (answer, netlist) = match lower(image, limits.n, limits.p) {
        Ok(words) => (ACCEPTED, words),
        Err(refusal) => (refusal, vec![0; required]),
    };
    assert_eq!(netlist.len(), required, "struo's netlist image has another length");
    Expected { answer, netlist: Some(netlist), scratch_required }
}

/// struo's lowering of a checked image: its netlist image, or refusals 6 to 10.
fn lower(image: &[u8], n: u32, p: u32) -> Result<Vec<u32>, Answer> {
    let answer = struo(image, n, p);
    match answer {
        driver::Answer::Refused(refusal) => Err(refusal),
        _ => Ok(driver::words(&answer, n, p)),
    }
}

/// Nets and list words that lowering the image takes, up to its end or to
/// where 6, 7 or 8 refuses it; `None` where 3 or 4 does.
pub fn netlist_use(image: &[u8]) -> Option<(u32, u32)> {
    reference::scratch_words(image, 1)?;
    Some(match struo(image, u32::MAX, u32::MAX) {
        driver::Answer::Netlist { nodes, records } => {
            let list_words: usize = records.iter().map(Vec::len).sum();
            (nodes.len() as u32, list_words as u32)
        }
        _ => (
            least(MOST_LIMIT, |n| !matches!(struo(image, n, u32::MAX), driver::Answer::Refused([9, ..]))),
            least(MOST_LIMIT, |p| !matches!(struo(image, u32::MAX, p), driver::Answer::Refused([10, ..]))),
        ),
    })
}

/// The least number up to `most` that serves; whatever is above one that
/// serves does too.
fn least(most: u32, serves: impl Fn(u32) -> bool) -> u32 {
    let (mut low, mut high) = (0, most);
    while low < high {
        let middle = (low + high) / 2;
        if serves(middle) {
            high = middle;
        } else {
            low = middle + 1;
        }
    }
    low
}

/// Runs struo. It must end in a netlist or a refusal on every checked image.
fn struo(image: &[u8], n: u32, p: u32) -> driver::Answer {
    let answer = driver::lower_limited(image, n, p, false);
    if let driver::Answer::Crash(text) = &answer {
        panic!("struo crashed on a checked image, N {n}, P {p}: {text}; image {}", hex(image));
    }
    answer
}

/// Bytes as hexadecimal digits.
pub fn hex(bytes: &[u8]) -> String {
    bytes.iter().map(|byte| format!("{byte:02x}")).collect()
}
