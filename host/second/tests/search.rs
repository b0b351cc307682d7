//! The two searches of the bit file, a word at a step, against searches that
//! go bit after bit: on chance bits, those from P on among them.

mod common;
use common::*;
use second::search::{highest_run, lowest_free};

/// Volumes of every remainder by 16, of one word of bits and of many.
fn sizes() -> impl Iterator<Item = u32> {
    (8..=40).chain(153..=176).chain(1_600..=1_616)
}

/// An image of so many pages with its bit file from page 1 on: words of the bit
/// file all ones, all zeros or with some bits the other way.
fn chance_bits(chance: &mut Chance, pages: u32) -> Vec<u16> {
    let mut image = vec![0; 1024 * pages as usize];
    put_pair(&mut image, 1020, 1);
    let full = 1 + chance.below(8);
    let bits = 1024..1024 * (1 + pages.div_ceil(16_384) as usize);
    for word in &mut image[bits] {
        *word = if chance.below(8) < full { u16::MAX } else { 0 };
        if chance.once_in(2) {
            for _ in 0..1 + chance.below(5) {
                *word ^= 1 << chance.below(16);
            }
        }
    }
    image
}

fn is_free(image: &[u16], page: u32) -> bool {
    image[1024 + page as usize / 16] >> (page % 16) & 1 == 0
}

/// The highest start of so many free pages, bit after bit.
fn highest_by_bits(image: &[u16], pages: u32, n: u32) -> Option<u32> {
    let mut run = 0;
    (0..pages).rev().find(|&page| {
        run = if is_free(image, page) { run + 1 } else { 0 };
        run == n
    })
}

#[test]
fn the_lowest_free_page_is_found() {
    let chance = &mut Chance::new(21);
    for pages in sizes() {
        for _ in 0..6 {
            let image = chance_bits(chance, pages);
            for from in 0..pages + 20 {
                let by_bits = (from..pages).find(|&page| is_free(&image, page));
                assert_eq!(lowest_free(&image, from), by_bits, "{pages} pages, from {from}");
            }
        }
    }
}

#[test]
fn the_highest_run_is_found() {
    let chance = &mut Chance::new(22);
    for pages in sizes() {
        for _ in 0..6 {
            let image = chance_bits(chance, pages);
            for n in (1..=40).chain([47, 48, 49, 63, 64, 65, 80, 100, 160, pages, pages + 1]) {
                let by_bits = highest_by_bits(&image, pages, n);
                assert_eq!(highest_run(&image, n), by_bits, "{pages} pages, {n} in a row");
            }
        }
    }
}

/// A bit file of two and of three pages: both searches near each border.
#[test]
fn searches_near_a_border() {
    let chance = &mut Chance::new(23);
    for (pages, border) in [
        (16_385, 16_384),
        (16_500, 16_384),
        (32_769, 32_768),
        (33_000, 16_384),
        (33_000, 32_768),
    ] {
        for _ in 0..3 {
            let mut image = chance_bits(chance, pages);
            // Full words around the border, so that most searches go over it.
            image[1024 + border as usize / 16 - 5..][..7].fill(u16::MAX);
            for from in border - 200..(border + 40).min(pages) {
                let by_bits = (from..pages).find(|&page| is_free(&image, page));
                assert_eq!(lowest_free(&image, from), by_bits, "{pages} pages, from {from}");
            }
            image[1024 + border as usize / 16 - 5..][..7].fill(0);
            for n in [1, 2, 15, 16, 17, 60, 80, 81, 96, 97, 112, 113, 128, 150, pages] {
                let by_bits = highest_by_bits(&image, pages, n);
                assert_eq!(highest_run(&image, n), by_bits, "{pages} pages, {n} in a row");
            }
        }
    }
}

/// One run alone on a full volume, whose bits of these pages are all set: every
/// start of a word, every length up to three whole words and parts on both sides;
/// one page more is not there.
fn a_run_is_found(pages: usize, starts: impl Iterator<Item = u32>) {
    let mut image = vec![0; 1024 * pages];
    put_pair(&mut image, 1020, 1);
    let bits = 1024..1024 * (1 + pages.div_ceil(16_384));
    for start in starts {
        for n in 1..=80 {
            image[bits.clone()].fill(u16::MAX);
            for page in start..start + n {
                image[1024 + page as usize / 16] ^= 1 << (page % 16);
            }
            assert_eq!(lowest_free(&image, 0), Some(start));
            assert_eq!(lowest_free(&image, start + 1), (n > 1).then_some(start + 1));
            assert_eq!(
                (highest_run(&image, n), highest_run(&image, n + 1)),
                (Some(start), None),
                "{n} from {start}"
            );
        }
    }
}

#[test]
fn a_run_is_found_wherever_it_lies() {
    a_run_is_found(160, 32..48);
}

/// The same where bit pages meet (document 02, T-06): the run is in one of them, or
/// begins in one and goes on in the next.
#[test]
fn a_run_is_found_over_a_border() {
    a_run_is_found(16_500, 16_384 - 81..16_384 + 17);
    a_run_is_found(33_000, (32_768 - 81..32_768 + 17).step_by(3));
    a_run_is_found(140_733, [16_383, 65_500, 65_535, 65_536, 131_071, 131_072, 140_653].into_iter());
}

/// A volume whose bits below P are all ones, those from P on all zeros: no
/// page is free. With the last page free a run of one is there, none of two.
#[test]
fn bits_from_p_on_are_not_read() {
    for pages in sizes().chain([16_384, 16_385, 16_399, 32_768, 32_769, 37_035, 140_733]) {
        let mut image = vec![0; 1024 * pages as usize];
        put_pair(&mut image, 1020, 1);
        (0..pages).for_each(|page| image[1024 + page as usize / 16] |= 1 << (page % 16));
        assert_eq!((lowest_free(&image, 0), highest_run(&image, 1)), (None, None));
        let last = pages - 1;
        image[1024 + last as usize / 16] ^= 1 << (last % 16);
        assert_eq!((lowest_free(&image, 0), lowest_free(&image, pages)), (Some(last), None));
        assert_eq!((highest_run(&image, 1), highest_run(&image, 2)), (Some(last), None));
    }
}
