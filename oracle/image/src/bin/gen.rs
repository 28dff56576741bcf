//! gen: writes made images: random valid ones, damaged ones, the border
//! cases and the deepest chain.

use image::command::{self, write};
use image::{Image, Size};
use std::fs;
use std::path::Path;
use std::process::ExitCode;

const HELP: &str = "usage: gen SEED SIZE -o IMAGE
       gen mutate SEED IMAGE -o IMAGE
       gen deepest WIDTH LENGTH [CONDITIONS] -o IMAGE
       gen borders -o DIRECTORY

SEED SIZE writes the random valid image of that seed; SIZE is tiny, small,
medium or large. mutate damages an image. deepest writes a signal of WIDTH
bits, each depending on the one below through LENGTH inversions, behind so many
muxes, each the condition of the next. borders writes one file for each border
case and a table cases.txt: file, net limit, list limit, netlist words, scratch
words, description.";

fn main() -> ExitCode {
    command::main("gen", HELP, run)
}

fn run(words: &[&str]) -> Result<String, String> {
    match words {
        ["mutate", seed, source, "-o", target] => {
            write(target, &image::mutate(number(seed)?, &command::read(source)?))
        }
        ["deepest", width, length, "-o", target] => {
            write(target, &deepest(number(width)?, number(length)?, 0)?.encode())
        }
        ["deepest", width, length, conditions, "-o", target] => {
            write(target, &deepest(number(width)?, number(length)?, number(conditions)?)?.encode())
        }
        ["borders", "-o", directory] => write_borders(Path::new(directory)),
        [seed, size, "-o", target] => {
            let size: Size = size.parse()?;
            write(target, &image::generate(number(seed)?, size).encode())
        }
        _ => Err(command::unknown("gen")),
    }
}

fn number(text: &str) -> Result<u64, String> {
    text.parse()
        .map_err(|_| format!("'{text}' is not a number"))
}

fn deepest(width: u64, length: u64, conditions: u64) -> Result<Image, String> {
    if (1..=1024).contains(&width) && length <= 2046 && conditions <= 2046 {
        Ok(image::deepest_behind(width as u32, length as u32, conditions as u32))
    } else {
        Err("WIDTH is 1 to 1024, LENGTH and CONDITIONS at most 2046".to_string())
    }
}

fn write_borders(directory: &Path) -> Result<String, String> {
    fs::create_dir_all(directory).map_err(|error| error.to_string())?;
    let mut table = String::new();
    for (number, (name, bytes, n, p, netlist, scratch)) in image::borders().into_iter().enumerate()
    {
        let file = format!("{number:05}.img");
        fs::write(directory.join(&file), bytes).map_err(|error| error.to_string())?;
        table += &format!("{file} {n} {p} {netlist} {scratch} {name}\n");
    }
    fs::write(directory.join("cases.txt"), table).map_err(|error| error.to_string())?;
    Ok(String::new())
}
