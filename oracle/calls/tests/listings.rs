//! What the command ./lower prints is the listing of struo's own netlist, on the
//! corpus and on random images; and every refusal of these is said in words.

use command::arguments::{Request, Wish, request};
use command::lowering::lower;
use command::refusal::in_words;
use command::{ACCEPTED, Answer};
use image::{Size, assemble, generate, mutate};

/// The listing program's limits and scratch.
fn wish() -> Wish {
    let words = ["file", "--nets", "1024", "--words", "2048", "--scratch", "8192"];
    match request(&words.map(String::from)) {
        Ok(Request::Lower(wish)) => wish,
        other => panic!("{other:?}"),
    }
}

/// What the command prints, with the words behind a refusal's numbers cut off.
fn printed(image: &[u8]) -> (Answer, String) {
    let wish = wish();
    let outcome = lower(image, &wish);
    if outcome.answer == ACCEPTED {
        return (ACCEPTED, image::listing(image, &outcome.words).expect("a netlist"));
    }
    let words = in_words(outcome.answer, image, &wish, &outcome.room);
    let (numbers, meaning) = words.split_once(": ").expect("numbers and words");
    assert!(meaning.len() > 10, "{words}");
    // The rule that 3 or 4 quotes; names have no blanks.
    assert_eq!(outcome.answer[0] == 3 || outcome.answer[0] == 4, meaning.contains(": \""), "{words}");
    (outcome.answer, format!("{numbers}\n"))
}

/// Compares one image; its number.
fn compare(name: &str, image: &[u8]) -> u32 {
    const MOST_BYTES: usize = 32_768;
    let image = &image[..image.len().min(MOST_BYTES)];
    let (answer, text) = printed(image);
    assert_eq!(text, driver::listing(image, &reference::check), "{name}");
    answer[0]
}

#[test]
fn the_corpus() {
    driver::with_big_stack(|| {
        let directory = concat!(env!("CARGO_MANIFEST_DIR"), "/../../corpus");
        let mut texts = 0;
        for entry in std::fs::read_dir(directory).expect("the corpus") {
            let path = entry.expect("an entry").path();
            if path.extension().is_some_and(|extension| extension == "txt") {
                let text = std::fs::read_to_string(&path).expect("a text");
                compare(&path.display().to_string(), &assemble(&text).expect("a good text"));
                texts += 1;
            }
        }
        assert!(texts > 100, "{texts}");
    });
}

#[test]
fn random_images() {
    driver::with_big_stack(|| {
        let mut answers = [0; 11];
        for (size, count) in [(Size::Tiny, 1_500), (Size::Small, 600), (Size::Medium, 30)] {
            for seed in 0..count {
                let image = generate(seed, size).encode();
                answers[compare(&format!("{size:?} {seed}"), &image) as usize] += 1;
                let damaged = mutate(seed, &image);
                answers[compare(&format!("{size:?} {seed}, damaged"), &damaged) as usize] += 1;
            }
        }
        for number in [0, 3, 4, 5, 6, 7, 8] {
            assert!(answers[number] > 0, "{answers:?}");
        }
    });
}

/// Words that are no netlist are told, not read past.
#[test]
fn words_that_are_no_netlist() {
    let image = generate(1, Size::Tiny).encode();
    let no_kind = [1, 1, 7, 0, 7, 0, 0, 12, 0, 0, 0, 0, 0];
    let no_signal = [1, 1, 7, 0, 7, 0, 0, 0, 512, 0, 0, 0, 0];
    let no_sort = [1, 0, 5, 1, 5, 5];
    let cut_record = [1, 0, 5, 3, 5, 0, 0, 1];
    let shapes = [&[][..], &[0; 5], &[u32::MAX; 40], &[1, 9, 16, 0, 16, 0, 0]];
    for words in shapes.into_iter().chain([&no_kind[..], &no_signal, &no_sort, &cut_record]) {
        assert_eq!(image::listing(&image, words), None, "{words:?}");
    }
}
