//! levels: how deep the lowering of an image goes, counted by following it.

mod deep;
mod walk;

use deep::{looped, Shape};
use image::{generate, tangled, Image, Random, Size};
use std::fs;
use std::process::ExitCode;
use walk::{most_levels, Levels, Walk};

const HELP: &str = "usage: levels IMAGE..
       levels --seed S --images N
       levels looped WIDTH INVERSIONS [-o IMAGE]
       levels worst NEED BIT

Counts the calls of the lowering that are live at a time: signal bits, their
drivers, other whole expressions, ranges of expressions. No image comes to more
than its expression bits, twice its expressions and 3.

IMAGE..: of these images, which must pass the checks. --images: of so many
random images, half of them full of loops, looking at each path. looped: of the
image with these numbers and as many pairs as fit; -o writes it. worst: the
numbers for which looped takes most stack, if a need takes NEED bytes and a
signal bit BIT bytes more.";

fn main() -> ExitCode {
    let arguments: Vec<String> = std::env::args().skip(1).collect();
    let words: Vec<&str> = arguments.iter().map(String::as_str).collect();
    match run(&words) {
        Ok(()) => ExitCode::SUCCESS,
        Err(message) => {
            eprintln!("{message}");
            ExitCode::FAILURE
        }
    }
}

fn run(words: &[&str]) -> Result<(), String> {
    match words {
        [] | ["--help" | "-h"] => Err(HELP.to_string()),
        ["--seed", seed, "--images", images] => {
            random_images(number(seed)?, number(images)?);
            Ok(())
        }
        ["looped", width, inversions] => report("looped", &shaped(width, inversions)?),
        ["looped", width, inversions, "-o", target] => {
            let image = shaped(width, inversions)?;
            fs::write(target, image.encode()).map_err(|error| format!("{target}: {error}"))?;
            report(target, &image)
        }
        ["worst", need, bit] => {
            let (need, bit) = (number(need)? as usize, number(bit)? as usize);
            let (bytes, shape) = worst(need, bit);
            println!("{shape:?}: {bytes} bytes of levels");
            Ok(())
        }
        files => files.iter().try_for_each(|file| {
            let bytes = fs::read(file).map_err(|error| format!("{file}: {error}"))?;
            let image = Image::decode(&bytes).ok_or_else(|| format!("{file}: no module image"))?;
            report(file, &image)
        }),
    }
}

fn number(text: &str) -> Result<u64, String> {
    text.parse().map_err(|_| format!("'{text}' is not a number"))
}

fn shaped(width: &str, inversions: &str) -> Result<Image, String> {
    let shape = Shape::with(number(width)? as u32, number(inversions)? as u32).filter(|shape| shape.fits());
    Ok(looped(shape.ok_or("this does not fit into an image")?))
}

fn report(name: &str, image: &Image) -> Result<(), String> {
    let (levels, refused) = Walk::new(image, false).run();
    let Levels { bits, drivers, wholes, ranges } = levels;
    let end = refused.map_or("accepted".to_string(), |[number, signal, bit]| format!("refused {number} {signal} {bit}"));
    println!(
        "{name}: {} levels of at most {}: {bits} bits, {drivers} drivers, {wholes} whole expressions, {ranges} ranges; {end}",
        levels.all(),
        most_levels(image)
    );
    Ok(())
}

/// Of random images: that none has more levels than it can have, and that
/// each path is as it must be. The deepest of them, by part of the most.
fn random_images(seed: u64, images: u64) {
    let mut deepest = (0, 1);
    let mut refused = [0; 3];
    for case in 0..images {
        let image = random_image(seed, case);
        let (levels, refusal) = Walk::new(&image, true).run();
        let (levels, most) = (levels.all(), most_levels(&image));
        assert!(levels <= most, "case {case} of seed {seed}: {levels} levels, at most {most}");
        if levels * deepest.1 > deepest.0 * most {
            deepest = (levels, most);
        }
        refused[refusal.map_or(0, |refusal| refusal[0] as usize - 5)] += 1;
    }
    let [accepted, undriven, loops] = refused;
    println!("{images} images: accepted {accepted}, refused 6: {undriven}, 7: {loops}; the deepest has {} of {} levels", deepest.0, deepest.1);
}

fn random_image(seed: u64, case: u64) -> Image {
    let mut random = Random::of_case(seed, case);
    if case % 2 == 0 {
        tangled(&mut random)
    } else {
        generate(random.next(), Size::ALL[random.below(2)])
    }
}

/// The looped image whose levels take most bytes.
fn worst(need: usize, bit: usize) -> (usize, Shape) {
    let inversions = |width: u32| (0..(32768 / width).min(2046)).filter_map(move |inversions| Shape::with(width, inversions));
    let shapes = (2..=1024).flat_map(inversions).filter(|shape| shape.fits());
    let bytes = |shape: Shape| {
        let [width, inversions, pairs] = [shape.width, shape.inversions, shape.pairs].map(|number| number as usize);
        // Twice the chain, a slice's range each time; for every other bit its need and the word's ranges; the bit met again.
        need * (2 * (3 * pairs + 1 + inversions + 1) + (width - 1) * (inversions + 2)) + bit * (width + 2)
    };
    shapes.map(|shape| (bytes(shape), shape)).max_by_key(|&(bytes, _)| bytes).expect("a shape")
}

#[cfg(test)]
mod tests {
    use super::*;
    use driver::Answer;

    fn checked(image: &Image) -> Vec<u8> {
        let bytes = image.encode();
        assert_eq!(reference::check(&bytes, 65_535, 65_535, usize::MAX, usize::MAX), [0; 3]);
        bytes
    }

    /// 6 and 7 are met where the Rust meets them.
    #[test]
    fn the_walk_ends_as_the_rust_does() {
        driver::with_big_stack(|| {
            for case in 0..4000 {
                let image = random_image(7, case);
                let (_, refusal) = Walk::new(&image, false).run();
                match driver::lower(&checked(&image), false) {
                    Answer::Refused(answer) if answer[0] < 8 => assert_eq!(refusal, Some(answer), "case {case}"),
                    Answer::Refused(_) => {}
                    Answer::Netlist { .. } => assert_eq!(refusal, None, "case {case}"),
                    Answer::Crash(text) => panic!("case {case}: {text}"),
                }
            }
        });
    }

    #[test]
    fn paths_are_as_counted() {
        random_images(1, 20_000);
    }

    /// An expression may be live twice: a range of it, then bits of that range.
    #[test]
    fn a_bit_stands_in_two_live_ranges() {
        let mut builder = image::Builder::new();
        let (input, output, wire) = (builder.input("a", 1), builder.output("y", 2), builder.wire("s", 1));
        let (low, high) = (builder.read(wire), builder.read(input));
        let word = builder.concat(&[high, low]);
        let driver = builder.slice(word, 1, 1);
        let both = builder.slice(word, 0, 2);
        builder.assign(wire, driver);
        builder.assign(output, both);
        let image = builder.finish();
        checked(&image);
        let (levels, refusal) = Walk::new(&image, true).run();
        // y bit 0, its driver, word[1:0], low[0], s, its driver, word[1], high[0].
        assert_eq!((levels, refusal), (Levels { bits: 2, drivers: 2, wholes: 0, ranges: 4 }, None));
    }

    #[test]
    fn the_looped_image_is_nearly_as_deep_as_any() {
        let (_, shape) = worst(208, 224);
        let image = looped(shape);
        checked(&image);
        let (levels, refusal) = Walk::new(&image, false).run();
        assert_eq!(refusal, Some([7, 1, shape.width - 1]));
        assert!(levels.all() <= most_levels(&image) && levels.all() * 100 >= most_levels(&image) * 98, "{levels:?}");
    }
}
