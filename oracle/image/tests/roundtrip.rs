//! Bytes, records and text are three forms of one image.

use image::{assemble, disassemble, generate, mutate, Image, Size};

fn samples(count: u64) -> impl Iterator<Item = (u64, Image)> {
    Size::ALL
        .into_iter()
        .enumerate()
        .flat_map(move |(index, size)| {
            let seeds = if size == Size::Large {
                count / 10
            } else {
                count
            };
            (0..seeds).map(move |seed| (1000 * index as u64 + seed, generate(seed, size)))
        })
}

#[test]
fn decoding_gives_back_what_was_encoded() {
    for (label, image) in samples(300) {
        assert_eq!(Image::decode(&image.encode()), Some(image), "image {label}");
    }
}

#[test]
fn decoding_refuses_bytes_that_do_not_lay_out() {
    let bytes = generate(3, Size::Small).encode();
    for field in 0..16 {
        let mut wrong = bytes.clone();
        wrong[4 * field] ^= 1;
        assert_eq!(Image::decode(&wrong), None, "field {field}");
    }
    assert_eq!(Image::decode(&bytes[..bytes.len() - 1]), None);
    assert_eq!(Image::decode(&[bytes.clone(), vec![0]].concat()), None);
    assert_eq!(Image::decode(&bytes[..63]), None);
}

#[test]
fn text_of_valid_images_gives_the_same_bytes() {
    for (label, image) in samples(300) {
        let text = disassemble(&image);
        assert!(
            !text.contains("raw "),
            "image {label} needs raw records:\n{text}"
        );
        assert_eq!(
            assemble(&text).as_ref(),
            Ok(&image.encode()),
            "image {label}"
        );
    }
}

#[test]
fn text_of_damaged_images_gives_the_same_bytes() {
    let mut tried = 0;
    for (label, image) in samples(300) {
        for seed in 0..10 {
            let bytes = mutate(seed, &image.encode());
            let Some(damaged) = Image::decode(&bytes) else {
                continue;
            };
            let text = disassemble(&damaged);
            assert_eq!(
                assemble(&text),
                Ok(bytes),
                "image {label}, damage {seed}\n{text}"
            );
            tried += 1;
        }
    }
    assert!(tried > 2000, "only {tried} damaged images were laid out");
}
