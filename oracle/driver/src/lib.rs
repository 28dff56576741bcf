//! The oracle: runs struo's own lowering on module images and gives its answers
//! in the form of docs/RULES.md and docs/FORMATS.md (netlist images, refusals, the
//! listing's text).
//! Also holds simulators that follow the step rule, one for modules and two for
//! netlists, and the trace program over one of these.

mod big_stack;
mod building;
mod expressions;
mod listing;
mod module_image;
mod module_sim;
mod netlist_sim;
mod prepared;
mod rtl;
mod simulation;
mod trace;
mod trace_history;
mod trace_sim;
mod validated;
mod words;

// Copies of the lowering: `unchanged`; `plain`, with the rows of Or and Xor of
// request Q-5; `limited`, with these rows and limits.patch. `ranged` is the range
// analysis alone, with these rows and ranges.patch. `opened_ir` is the netlist alone.
include!(concat!(env!("OUT_DIR"), "/copies.rs"));

use std::any::Any;
use std::panic::{AssertUnwindSafe, catch_unwind};

pub use big_stack::with_big_stack;
pub use building::{Built, Operation, build, digest};
pub use expressions::{Fused, Ranged, expressions};
pub use listing::{Check, LISTING_LIMITS, listing};
pub use module_sim::ModuleSim;
pub use netlist_sim::NetlistSim;
pub use prepared::{Lowered, Prepared};
pub use simulation::{Contents, NoRun, Observation, Run, Seen, Setting, random_word};
pub use trace::{TraceProgram, trace};
pub use trace_sim::TraceSim;
pub use validated::Rebuilt;
pub use words::words;

use module_image::ModuleImage;

/// Marks an absent number in both images.
pub const ABSENT: u32 = u32::MAX;

/// What a lowering ends with.
#[derive(Clone, Debug, Eq, PartialEq)]
pub enum Answer {
    /// Accepted: the nodes, and the list records in the order pushed.
    Netlist {
        /// Kind, owner or value, bit, three inputs.
        nodes: Vec<[u32; 6]>,
        /// Each record's words.
        records: Vec<Vec<u32>>,
    },
    /// Refused by 6 to 10: the number and the place.
    Refused([u32; 3]),
    /// The Rust panicked, or the image could not be read. Never a refusal.
    Crash(String),
}

/// Lowers an image that passes checks 3 and 4 with the Rust and the rows
/// of request Q-5. `observable` is the value of `resolve_observable_dependencies`.
#[must_use]
pub fn lower(image: &[u8], observable: bool) -> Answer {
    guarded(|| plain::inside::lower(image, observable))
}

/// As [`lower`], with the unchanged Rust: Or and Xor have the full range.
#[must_use]
pub fn lower_unchanged(image: &[u8], observable: bool) -> Answer {
    guarded(|| unchanged::inside::lower(image, observable))
}

/// As [`lower`], with `n` nets and `p` list words at most: 9 when net `n + 1`
/// would be made, 10 when a record would pass `p` list words.
#[must_use]
pub fn lower_limited(image: &[u8], n: u32, p: u32, observable: bool) -> Answer {
    guarded(|| lower_patched(image, n, p, observable))
}

/// What struo's own validation says of an image's module, whose `Memory::word`
/// is the word width of the record.
///
/// # Errors
///
/// The image cannot be read, or what the validation finds.
pub fn validate(image: &[u8]) -> Result<(), String> {
    let module = rtl::module(&ModuleImage::decode(image)?)?;
    module.validate().map_err(|error| format!("{error:?}"))
}

fn lower_patched(image: &[u8], n: u32, p: u32, observable: bool) -> Result<Answer, String> {
    use limited::inside;
    let image = ModuleImage::decode(image)?;
    let module = rtl::module(&image)?;
    match inside::run(&module, observable, |netlist| {
        netlist.set_limits(n, p as usize)
    }) {
        Ok(netlist) => {
            let order: Vec<usize> = netlist.pushed().iter().map(|&sort| sort as usize).collect();
            Ok(inside::encode(&image, &netlist, &order))
        }
        Err(error) => inside::refusal(&image, &error).map(Answer::Refused),
    }
}

/// Runs a lowering on a big stack and sorts out how it ended.
fn guarded(lowering: impl FnOnce() -> Result<Answer, String> + Send) -> Answer {
    let result = with_big_stack(|| catch_unwind(AssertUnwindSafe(lowering)));
    match result {
        Ok(Ok(answer)) => answer,
        Ok(Err(text)) => Answer::Crash(text),
        Err(payload) => unwound(payload.as_ref()),
    }
}

/// An unwinding is a limit met or a panic.
fn unwound(payload: &(dyn Any + Send)) -> Answer {
    if let Some(limit) = payload.downcast_ref::<limited_ir::LimitMet>() {
        Answer::Refused([limit.0, 0, 0])
    } else if let Some(text) = payload.downcast_ref::<String>() {
        Answer::Crash(text.clone())
    } else if let Some(text) = payload.downcast_ref::<&str>() {
        Answer::Crash((*text).to_string())
    } else {
        Answer::Crash("panic without a text".to_string())
    }
}
