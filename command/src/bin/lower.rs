//! `lower FILE`: see `--help`. The script ./lower builds and starts it.

use command::arguments::{HELP, Request, Wish, request};
use command::input::{image_in, image_of_edition_1_in, words_in};
use command::lowering::{Outcome, lower};
use command::refusal::{in_words, of_netlist_in_words};
use command::shell::{bytes_of, on_deep_stack, print, status, write};
use command::{ACCEPTED, Answer, stored};
use std::process::ExitCode;

fn main() -> ExitCode {
    let words: Vec<String> = std::env::args().skip(1).collect();
    let ended = match request(&words) {
        Ok(Request::Help) => print(HELP).map(|()| ACCEPTED),
        Ok(Request::Lower(wish)) => on_deep_stack(|| run(&wish)),
        Ok(Request::CheckNetlist(file)) => on_deep_stack(|| check_netlist(&file)),
        Err(problem) => Err(format!("{problem}; see ./lower --help")),
    };
    status("lower", ended)
}

fn run(wish: &Wish) -> Result<Answer, String> {
    let image = if wish.from_edition_1 { image_of_edition_1_in(&wish.file) } else { image_in(&wish.file) }?;
    if let Some(file) = &wish.image_out {
        write(file, &image)?;
    }
    let Outcome { answer, words, room } = lower(&image, wish);
    if answer != ACCEPTED {
        print(&in_words(answer, &image, wish, &room))?;
        return Ok(answer);
    }
    if let Some(file) = &wish.words_out {
        write(file, &bytes_of(&words))?;
    }
    let listing = image::listing(&image, &words);
    print(&listing.ok_or("the netlist's words cannot be read")?)?;
    Ok(answer)
}

fn check_netlist(file: &str) -> Result<Answer, String> {
    let words = words_in(file)?;
    let answer = port::netlist_check(&words);
    print(&if answer == ACCEPTED { stored::accepted(&words) } else { of_netlist_in_words(answer, &words) })?;
    Ok(answer)
}
