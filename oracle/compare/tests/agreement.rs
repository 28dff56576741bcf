//! Where the oracle's parts say the same thing twice, they agree.

use image::{borders, generate, netlist_words, Image, Size};

fn images() -> impl Iterator<Item = Vec<u8>> {
    let sizes = [(Size::Tiny, 1_500), (Size::Small, 500), (Size::Medium, 40), (Size::Large, 4)];
    sizes.into_iter().flat_map(|(size, count)| (0..count).map(move |seed| generate(seed, size).encode()))
}

#[test]
fn generated_images_keep_the_rules() {
    for image in images() {
        let answer = reference::check(&image, 1, 0, usize::MAX, usize::MAX);
        assert_eq!(answer, reference::FINE);
    }
}

#[test]
fn both_sums_of_buffer_words_agree() {
    let bordering = borders().into_iter().map(|(_, image, ..)| image);
    for image in images().chain(bordering) {
        if let Some(scratch) = reference::scratch_words(&image, 77) {
            assert_eq!(Image::decode(&image).unwrap().scratch_words(77), scratch);
        }
    }
    assert_eq!(netlist_words(65_535, 65_535), reference::netlist_words(65_535, 65_535));
}

#[test]
fn both_readings_of_the_checks_agree_at_the_borders() {
    for (name, image, n, p, netlist, scratch) in borders() {
        let first = reference::check(&image, n, p, netlist, scratch);
        assert_eq!(reading::refusal(&image, n, p, netlist, scratch), first, "{name}");
    }
}

#[test]
fn headers_that_decode_are_those_that_refusal_3_passes() {
    for (name, image, ..) in borders() {
        let answer = reference::check(&image, 1, 0, usize::MAX, usize::MAX);
        assert_eq!(Image::decode(&image).is_none(), answer[0] == 3, "{name}: {answer:?}");
    }
}

#[test]
fn the_limited_lowering_is_the_plain_one_where_no_limit_is_met() {
    driver::with_big_stack(|| {
        for image in images() {
            let plain = driver::lower(&image, false);
            assert!(!matches!(plain, driver::Answer::Crash(_)), "{plain:?}");
            assert_eq!(driver::lower_limited(&image, u32::MAX, u32::MAX, false), plain);
        }
    });
}
