//! From edition 1 to edition 2: images that edition 1's assembler wrote, the
//! whole corpus, random images, and bytes that are no image of edition 1.

use image::{assemble, from_edition_1, generate, memory_field, set_word, to_edition_1, Image, Size};
use std::fs;
use std::path::{Path, PathBuf};

fn files(directory: &str, extension: &str) -> Vec<PathBuf> {
    let directory = Path::new(env!("CARGO_MANIFEST_DIR")).join(directory);
    let entries = fs::read_dir(directory).expect("a directory");
    let mut paths: Vec<PathBuf> = entries.map(|entry| entry.expect("an entry").path()).collect();
    paths.retain(|path| path.extension().is_some_and(|found| found == extension));
    paths.sort();
    paths
}

/// The corpus texts of the images in `edition-1`, which were assembled when
/// edition 1 was the one that is read.
#[test]
fn stored_images_of_edition_1_become_those_of_their_texts() {
    let stored = files("tests/edition-1", "img");
    for path in &stored {
        let name = path.file_stem().expect("a name").to_string_lossy().into_owned();
        let text = Path::new(env!("CARGO_MANIFEST_DIR")).join(format!("../../corpus/{name}.txt"));
        let now = assemble(&fs::read_to_string(text).expect("a text")).expect("a right text");
        let before = fs::read(path).expect("an image");
        let image = from_edition_1(&before).expect(&name);
        assert_eq!(image.encode(), now, "{name}");
        assert_eq!(to_edition_1(&image), before, "{name}");
    }
    assert!(stored.len() >= 6, "only {}", stored.len());
}

/// Every text in which no width is written and the bytes are not patched.
#[test]
fn the_corpus_comes_through() {
    let (mut texts, mut memories) = (0, 0);
    for path in files("../../corpus", "txt") {
        let text = fs::read_to_string(&path).expect("a text");
        let statement = |word: &str| text.lines().any(|line| line.split_whitespace().next() == Some(word));
        if ["edition", "header", "truncate", "append", "raw"].into_iter().any(statement) || text.contains(" width ") {
            continue;
        }
        let before = assemble(&format!("edition 1\n{text}")).expect("a right text");
        let image = from_edition_1(&before).expect("an image of edition 1");
        assert_eq!(image.encode(), assemble(&text).expect("a right text"), "{path:?}");
        texts += 1;
        memories += image.memories.len();
    }
    assert!(texts > 120 && memories > 12, "{texts} texts, {memories} memories");
}

#[test]
fn random_images_come_through() {
    for seed in 0..600 {
        let image = generate(seed, Size::ALL[seed as usize % 3]);
        let before = to_edition_1(&image);
        assert_eq!(before.len() + 4 * image.memories.len(), image.encode().len());
        assert_eq!(from_edition_1(&before), Some(image), "seed {seed}");
    }
}

/// A memory whose read data are no signal gets the width 0, and is refused as it
/// was: by its read data.
#[test]
fn no_read_data_no_width() {
    let mut image = (0..).map(|seed| generate(seed, Size::Small)).find(|image| !image.memories.is_empty()).expect("a memory");
    image.memories[0][memory_field::FIRST_PORT + 1] = 9999;
    let now = from_edition_1(&to_edition_1(&image)).expect("an image");
    assert_eq!(now.memories[0][memory_field::WORD_WIDTH], 0);
    let answer = reference::check(&now.encode(), 1, 0, 22, usize::MAX);
    assert_eq!(answer[..2], [4, 5]);
}

#[test]
fn other_bytes_are_no_image_of_edition_1() {
    let image = (0..).map(|seed| generate(seed, Size::Small)).find(|image| image.memories.len() > 1).expect("memories");
    let before = to_edition_1(&image);
    assert_eq!(from_edition_1(&image.encode()), None);
    assert_eq!(from_edition_1(&before[..63]), None);
    assert_eq!(from_edition_1(&before[..before.len() - 1]), None);
    assert_eq!(from_edition_1(&[&before[..], &[0]].concat()), None);
    for field in 0..16 {
        for value in [0, 1, 2, 17, 63, 0x8000_0000, u32::MAX] {
            let mut wrong = before.clone();
            set_word(&mut wrong, field, value);
            if wrong != before {
                assert_eq!(from_edition_1(&wrong), None, "field {field} is {value}");
            }
        }
    }
    assert!(Image::decode(&before).is_none());
}
