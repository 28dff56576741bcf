//! What the tests of traces share: ports, and VCDs that are written and read.

use command::trace::arguments::FromVcd;
use command::trace::ports::{Port, Ports};
use command::trace::records::Record;
use command::trace::vcd::reading::VcdTrace;
use command::trace::vcd::writing::VcdWriter;
use std::io::{BufReader, Read};
use std::process::id;
use std::sync::atomic::{AtomicUsize, Ordering};

pub fn port(name: &str, width: usize) -> Port {
    Port { signal: 0, name: name.to_string(), width }
}

/// The VCD of what is written to it, its first scope `part`.
pub fn vcd_of(ports: &Ports, work: impl FnOnce(&mut dyn Record)) -> String {
    static FILES: AtomicUsize = AtomicUsize::new(0);
    let file = std::env::temp_dir().join(format!("trace-{}-{}.vcd", id(), FILES.fetch_add(1, Ordering::Relaxed)));
    let mut writer = VcdWriter::new(file.to_str().expect("a path"), "part", ports).expect("a file");
    work(&mut writer);
    writer.end().expect("an end");
    let vcd = std::fs::read_to_string(&file).expect("the VCD");
    std::fs::remove_file(&file).expect("the VCD");
    vcd
}

/// The trace that a VCD is read as, or what is wrong with it.
pub fn read_in(vcd: &str, inputs: &[Port], scope: Option<&str>, unknown_is_0: bool) -> Result<String, String> {
    let wish = FromVcd { file: "v.vcd".to_string(), scope: scope.map(str::to_string), unknown_is_0 };
    // A short buffer, so that words lie across its border.
    let mut trace = VcdTrace::new(BufReader::with_capacity(7, vcd.as_bytes()), &wish, inputs)?;
    let mut text = String::new();
    trace.read_to_string(&mut text).map_err(|error| error.to_string())?;
    Ok(text)
}
