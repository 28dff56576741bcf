//! Benchmarks of `struo_lower` beside struo's own lowering, in one run, on the
//! same images. It measures; it judges nothing.

use calls::speed::Race;
use compare::args::{parse_number, Words};
use compare::expect::netlist_use;
use compare::scratch::Scratch;
use image::{corpus, generate, heavy, Image, Size};
use std::path::Path;

const USAGE: &str = "bench-lower [images [IMAGE...] | growth | scratch CORPUS | repeat port|rust IMAGE CALLS]
    images   Times of the port's call and of struo's lowering, image by image.
    growth   The same against nets, expressions, signals and registers.
    scratch  Words of scratch with nets that just serve, and by the sum before
             request Q-10, of the same images and of those of the corpus that are accepted.
    repeat   Calls one of the two again and again, for a profiler.
The port's call takes bytes: its time holds the checks and the clearing of both
buffers. struo's is of Lowering::new and Lowering::lower on a module that stands
ready. Both are the least processor time of many calls.";

fn main() {
    let mut words = Words::of_process();
    let what = words.next().unwrap_or_else(|| "images".to_string());
    let done = driver::with_big_stack(|| match what.as_str() {
        "images" => Ok(times(&mut words)),
        "growth" => Ok(growth()),
        "scratch" => scratch(&mut words),
        "repeat" => repeat(&mut words),
        _ => Err(USAGE.to_string()),
    });
    if let Err(text) = done {
        eprintln!("{text}");
        std::process::exit(2);
    }
}

/// Images by name, made where they are wanted.
type Case = (&'static str, fn() -> Vec<Image>);

const CASES: [Case; 17] = [
    ("K2", || vec![k2()]),
    ("random tiny, 20 images", || random(Size::Tiny, 20)),
    ("random small, 20 images", || random(Size::Small, 20)),
    ("random medium, 20 images", || random(Size::Medium, 20)),
    ("random large, 20 images", || random(Size::Large, 20)),
    ("most nets", || vec![heavy::shift_stages(62)]),
    ("slowest", || vec![heavy::gate_lookups(28)]),
    ("shared gates", || vec![heavy::shared_gates(682, 16)]),
    ("shared sums", || vec![heavy::shared_sums(1000, 16)]),
    ("shared signals", || vec![heavy::shared_signals(500, 8)]),
    ("wide trees", || vec![heavy::wide_trees()]),
    ("wide multiplications", || vec![heavy::multiplications(20)]),
    ("one-bit slices", || vec![heavy::one_bit_slices(1024)]),
    ("registers", || vec![heavy::registers(256)]),
    ("memories", || vec![heavy::memories(16, 120)]),
    ("deepest, 32 x 1,000", || vec![image::deepest(32, 1000)]),
    ("deepest, 128 x 250", || vec![image::deepest(128, 250)]),
];

fn k2() -> Image {
    let bytes = image::assemble(include_str!("../../../../corpus/k02.txt"));
    bytes.ok().and_then(|bytes| Image::decode(&bytes)).expect("a text of the corpus")
}

/// Random images that struo accepts.
fn random(size: Size, count: usize) -> Vec<Image> {
    (0u64..)
        .map(|seed| generate(seed, size))
        .filter(|image| is_accepted(&image.encode()))
        .take(count)
        .collect()
}

fn is_accepted(image: &[u8]) -> bool {
    reference::scratch_words(image, 1).is_some() && matches!(driver::lower(image, false), driver::Answer::Netlist { .. })
}

fn times(words: &mut Words) {
    let names: Vec<String> = std::iter::from_fn(|| words.next()).collect();
    println!(
        "{:<26} {:>8} {:>8} {:>12} {:>12} {:>12} {:>6} {:>9}",
        "image", "bytes", "nets", "port ns", "largest N,P", "Rust ns", "ratio", "largest"
    );
    let wanted = |name: &str| names.is_empty() || names.iter().any(|other| other == name);
    for (name, images) in CASES.into_iter().filter(|(name, _)| wanted(name)) {
        let races: Vec<Race> = images().iter().map(|image| Race::new(image.encode())).collect();
        let sum = |of: fn(&Race) -> f64| races.iter().map(of).sum::<f64>();
        let [bytes, nets] = [sum(|race| race.bytes() as f64), sum(|race| f64::from(race.nets))];
        let [port, largest, rust] = [sum(Race::port), sum(Race::port_largest), sum(Race::rust)];
        println!(
            "{name:<26} {bytes:>8.0} {nets:>8.0} {port:>12.0} {largest:>12.0} {rust:>12.0} {:>6.2} {:>9.2}",
            port / rust,
            largest / rust
        );
    }
}

fn growth() {
    let curves: [(&str, fn(u32) -> Image, &[u32]); 6] = [
        ("shift stages of 1,024 bits (nets)", heavy::shift_stages, &[1, 2, 4, 8, 16, 31, 62]),
        ("steps of shared gates, 3 expressions each", |steps| heavy::shared_gates(steps, 16), &[10, 20, 40, 85, 170, 341, 682]),
        ("steps of shared sums", |steps| heavy::shared_sums(steps, 16), &[10, 30, 60, 125, 250, 500, 1000]),
        ("signals of 8 bits", |signals| heavy::shared_signals(signals, 8), &[8, 16, 32, 64, 125, 250, 500]),
        ("registers of 8 bits", heavy::registers, &[4, 8, 16, 32, 64, 128, 256]),
        ("one-bit slices", heavy::one_bit_slices, &[16, 32, 64, 128, 256, 512, 1024]),
    ];
    for (name, image, sizes) in curves {
        println!("{name}\n{:>8} {:>8} {:>12} {:>12} {:>6} {:>12}", "size", "nets", "port ns", "Rust ns", "ratio", "port ns/size");
        for &size in sizes {
            let race = Race::new(image(size).encode());
            let [port, rust] = [race.port(), race.rust()];
            let each = port / f64::from(size);
            println!("{size:>8} {:>8} {port:>12.0} {rust:>12.0} {:>6.2} {each:>12.1}", race.nets, port / rust);
        }
    }
}

fn scratch(words: &mut Words) -> Result<(), String> {
    let texts = corpus::texts(Path::new(&words.value("scratch")?))?;
    let mut corpus: Vec<Vec<u8>> = texts.into_iter().map(|text| text.image).collect();
    corpus.retain(|image| is_accepted(image));
    println!("| image | nets | words by the former sum | words | part |\n|---|---|---|---|---|");
    for (name, images) in CASES {
        scratch_row(name, &images().iter().map(Image::encode).collect::<Vec<_>>());
    }
    scratch_row(&format!("corpus, {} images", corpus.len()), &corpus);
    let largest = corpus.into_iter().max_by_key(|image| scratch_of(image).1.required);
    scratch_row("corpus, its largest", largest.as_slice());
    Ok(())
}

/// The sums over some images.
fn scratch_row(name: &str, images: &[Vec<u8>]) {
    let each: Vec<(u32, Scratch)> = images.iter().map(|image| scratch_of(image)).collect();
    let nets: u32 = each.iter().map(|(nets, _)| nets).sum();
    let former: usize = each.iter().map(|(_, scratch)| scratch.former).sum();
    let required: usize = each.iter().map(|(_, scratch)| scratch.required).sum();
    println!("| {name} | {nets} | {former} | {required} | {:.2} |", required as f64 / former as f64);
}

/// Nets that an image takes, and the scratch with as many.
fn scratch_of(image: &[u8]) -> (u32, Scratch) {
    let (nets, _) = netlist_use(image).expect("an image that passes checks 3 and 4");
    (nets, Scratch::of(image, nets.max(1)).expect("an image that passes checks 3 and 4"))
}

fn repeat(words: &mut Words) -> Result<(), String> {
    let side = words.value("repeat")?;
    let name = words.value("repeat")?;
    let calls = parse_number("CALLS", &words.value("repeat")?)? as u32;
    let (_, images) = CASES.into_iter().find(|(image, _)| *image == name).ok_or(format!("no image {name:?}"))?;
    for image in images() {
        let race = Race::new(image.encode());
        match side.as_str() {
            "port" => race.repeat_port(calls),
            "rust" => race.repeat_rust(calls),
            _ => return Err(USAGE.to_string()),
        }
    }
    Ok(())
}
