//! Runs the outside tools: Icarus Verilog as simulator, Yosys as prover.

use std::fs::{self, File};
use std::path::{Path, PathBuf};
use std::process::{Command, Stdio};
use std::sync::atomic::{AtomicUsize, Ordering};
use std::thread::sleep;
use std::time::{Duration, Instant};

use crate::bench::Bench;

const MOST_TIME: Duration = Duration::from_secs(120);

/// Whether a program can be started.
pub fn is_installed(program: &str) -> bool {
    let mut command = Command::new(program);
    let command = command
        .arg("-V")
        .stdin(Stdio::null())
        .stdout(Stdio::null())
        .stderr(Stdio::null());
    command.status().is_ok()
}

/// A directory for the files of one run, removed at the end unless kept.
pub struct Workplace {
    path: PathBuf,
    keep: bool,
}

impl Workplace {
    /// A new directory; no two of one process are the same.
    pub fn new() -> Result<Self, String> {
        static MADE: AtomicUsize = AtomicUsize::new(0);
        let (process, number) = (std::process::id(), MADE.fetch_add(1, Ordering::Relaxed));
        let path = std::env::temp_dir().join(format!("witness-{process}-{number}"));
        fs::create_dir_all(&path).map_err(|error| format!("{}: {error}", path.display()))?;
        Ok(Workplace { path, keep: false })
    }

    pub fn path(&self) -> &Path {
        &self.path
    }

    pub fn keep(&mut self) {
        self.keep = true;
    }

    pub fn write(&self, name: &str, text: &str) -> Result<(), String> {
        fs::write(self.path.join(name), text).map_err(|error| format!("{name}: {error}"))
    }

    fn read(&self, name: &str) -> Result<String, String> {
        fs::read_to_string(self.path.join(name)).map_err(|error| format!("{name}: {error}"))
    }

    /// What a program prints here, both streams, and whether it went well;
    /// nothing where it does not end in time.
    fn run(&self, program: &str, arguments: &[&str]) -> Result<Option<(String, bool)>, String> {
        let failed = |error| format!("{program}: {error}");
        let output = File::create(self.path.join("printed.txt")).map_err(failed)?;
        let errors = output.try_clone().map_err(failed)?;
        let mut command = Command::new(program);
        command
            .args(arguments)
            .current_dir(&self.path)
            .stdin(Stdio::null())
            .stdout(output)
            .stderr(errors);
        let mut child = command.spawn().map_err(failed)?;
        let start = Instant::now();
        let status = loop {
            if let Some(status) = child.try_wait().map_err(failed)? {
                break status;
            }
            if start.elapsed() > MOST_TIME {
                let _ = child.kill();
                let _ = child.wait();
                return Ok(None);
            }
            sleep(Duration::from_millis(2));
        };
        Ok(Some((self.read("printed.txt")?, status.success())))
    }
}

impl Drop for Workplace {
    fn drop(&mut self) {
        if !self.keep {
            let _ = fs::remove_dir_all(&self.path);
        }
    }
}

/// What Icarus prints for the bench of modules `rtl` and `netlist`.
pub fn simulate(
    place: &Workplace,
    rtl: &str,
    netlist: &str,
    bench: &Bench,
) -> Result<String, String> {
    place.write("rtl.v", rtl)?;
    place.write("netlist.v", netlist)?;
    place.write("bench.v", &bench.text)?;
    for (name, text) in &bench.files {
        place.write(name, text)?;
    }
    compiled_and_run(place, &["bench"], &["rtl.v", "netlist.v", "bench.v"])
}

/// What Icarus prints for benches that begin with these modules; every file whose
/// name ends in `.v` is compiled.
pub fn simulate_benches(
    place: &Workplace,
    files: &[(String, String)],
    tops: &[String],
) -> Result<String, String> {
    for (name, text) in files {
        place.write(name, text)?;
    }
    let names = files.iter().map(|(name, _)| name.as_str());
    let sources: Vec<&str> = names.filter(|name| name.ends_with(".v")).collect();
    let tops: Vec<&str> = tops.iter().map(String::as_str).collect();
    compiled_and_run(place, &tops, &sources)
}

fn compiled_and_run(place: &Workplace, tops: &[&str], sources: &[&str]) -> Result<String, String> {
    let mut compile = vec!["-g2012", "-o", "bench.vvp"];
    compile.extend(tops.iter().flat_map(|top| ["-s", top]));
    compile.extend(sources);
    let late = |program: &str| format!("{program} did not end in {MOST_TIME:?}");
    let (printed, good) = place
        .run("iverilog", &compile)?
        .ok_or_else(|| late("iverilog"))?;
    if !good || !printed.is_empty() {
        return Err(format!("iverilog says: {printed}"));
    }
    let (printed, good) = place
        .run("vvp", &["-n", "bench.vvp"])?
        .ok_or_else(|| late("vvp"))?;
    if good {
        Ok(printed)
    } else {
        Err(format!("vvp says: {printed}"))
    }
}

/// How a proof of equivalence ended.
#[derive(Clone, Copy, PartialEq, Eq, Debug)]
pub enum Proof {
    Equal,
    /// No answer within the time.
    Open,
}

/// Has Yosys prove modules `rtl` and `netlist` equal for all settings.
pub fn prove_equal(
    place: &Workplace,
    rtl: &str,
    netlist: &str,
    seconds: u32,
) -> Result<Proof, String> {
    place.write("rtl.v", rtl)?;
    place.write("netlist.v", netlist)?;
    let script = format!(
        "read_verilog -sv rtl.v netlist.v; proc; miter -equiv -flatten -make_outputs rtl netlist miter; \
         hierarchy -top miter; opt; sat -verify-no-timeout -timeout {seconds} -prove trigger 0 miter"
    );
    let Some((printed, good)) = place.run("yosys", &["-Q", "-T", "-p", &script])? else {
        return Ok(Proof::Open);
    };
    if good && printed.contains("SAT proof finished - no model found: SUCCESS!") {
        Ok(Proof::Equal)
    } else if good && printed.contains("TIMEOUT") {
        Ok(Proof::Open)
    } else {
        Err(format!("yosys says: {}", last_lines(&printed, 40)))
    }
}

fn last_lines(text: &str, count: usize) -> String {
    let lines: Vec<&str> = text.lines().collect();
    lines[lines.len().saturating_sub(count)..].join("\n")
}
