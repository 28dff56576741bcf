//! This reading and the reference checks answer alike on small images with each
//! field, and each two header fields, exchanged for values at which a rule
//! turns. The command `compare` holds both on all its images.

use image::{HEADER_FIELDS, Image, Size, generate, set_word, word_at};

#[test]
fn each_field() {
    for seed in 0..12 {
        let image = generate(seed, Size::Tiny).encode();
        alike(&image);
        for number in 0..image.len() / 4 {
            for value in turning(word_at(&image, number)) {
                alike(&with_field(&image, number, value));
            }
        }
    }
}

#[test]
fn each_two_header_fields() {
    for image in [Image::default(), generate(3, Size::Tiny)].map(|image| image.encode()) {
        for one in 0..HEADER_FIELDS {
            for value in turning(word_at(&image, one)) {
                let changed = with_field(&image, one, value);
                for other in one + 1..HEADER_FIELDS {
                    for value in turning(word_at(&image, other)) {
                        alike(&with_field(&changed, other, value));
                    }
                }
            }
        }
    }
}

fn alike(image: &[u8]) {
    let (n, p, netlist, scratch) = (1, 0, 22, 1 << 20);
    let read = reading::refusal(image, n, p, netlist, scratch);
    let reference = reference::check(image, n, p, netlist, scratch);
    assert_eq!(read, reference, "this reading and the reference, on {image:?}");
}

/// Values near a field's own, and near the ends of what rules allow.
fn turning(value: u32) -> impl Iterator<Item = u32> {
    let near = [-64i32, -8, -4, -2, -1, 1, 2, 4, 8, 64].map(|by| value.wrapping_add_signed(by));
    let ends = [1, 3, 5, 7, 16, 19, 26, 33, 64, 256, 512, 1_024, 2_048, 8_192, 16_384, 65_536];
    let ends = ends.into_iter().flat_map(|end| [end - 1, end, end + 1]);
    near.into_iter().chain(ends).chain([1 << 31, u32::MAX - 1, u32::MAX])
}

fn with_field(image: &[u8], number: usize, value: u32) -> Vec<u8> {
    let mut image = image.to_vec();
    set_word(&mut image, number, value);
    image
}
