//! The proved searches for free pages by themselves, as safe functions of Rust. host/probe/probe.h says what they give.
//!
//! They are inner functions of the library, exported by a crate of their own so that they can be timed. What makes them safe is that their
//! contracts ask nothing of their caller: the image is lent for the time of the call, and nothing outside it is read.

mod boundary {
    extern "C" {
        pub(crate) fn nord_probe_free(image: *const u16, words: usize, from: usize) -> usize;
        pub(crate) fn nord_probe_run(image: *const u16, words: usize, n: usize) -> usize;
    }
}

/// The lowest free page from a page on, and the image's pages if there is none; 0 where the image cannot be searched.
pub fn lowest_free(image: &[u16], from: usize) -> usize {
    unsafe { boundary::nord_probe_free(image.as_ptr(), image.len(), from) }
}

/// The highest start of so many free pages in a row, and 0 if there is none or the image cannot be searched.
pub fn highest_run(image: &[u16], count: usize) -> usize {
    unsafe { boundary::nord_probe_run(image.as_ptr(), image.len(), count) }
}

#[cfg(test)]
mod tests {
    use super::*;

    const PAGE: usize = 1024;
    const BIT_POINTER: usize = 1020;

    /// An image of so many pages whose bit pointer has this page, with all bits 0.
    fn image(pages: usize, bit_page: usize) -> Vec<u16> {
        let mut words = vec![0; pages * PAGE];
        words[BIT_POINTER] = (bit_page >> 16) as u16;
        words[BIT_POINTER + 1] = bit_page as u16;
        words
    }

    #[test]
    fn free_pages_are_found() {
        let mut words = image(20, 3);
        words[3 * PAGE] = 0b1111_0111_1111_1111;
        words[3 * PAGE + 1] = 0b0100; // pages from 20 on seem free, and are none
        assert_eq!(
            [0, 11, 12, 17, 18, 19, 20, 21].map(|from| lowest_free(&words, from)),
            [11, 11, 16, 17, 19, 19, 20, 20]
        );
        assert_eq!([1, 2, 3].map(|count| highest_run(&words, count)), [19, 16, 0]);
    }

    #[test]
    fn free_pages_of_the_second_bit_page_are_found() {
        let mut words = image(16_402, 7);
        words[7 * PAGE..8 * PAGE].fill(u16::MAX);
        words[8 * PAGE] = 0b1111_1111_1110_1111;
        assert_eq!(
            [0, 16_383, 16_388, 16_389, 16_401, 16_402].map(|from| lowest_free(&words, from)),
            [16_388, 16_388, 16_388, 16_400, 16_401, 16_402]
        );
        assert_eq!([1, 2, 3].map(|count| highest_run(&words, count)), [16_401, 16_400, 0]);
        words[8 * PAGE - 1] = 0b0111_1111_1111_1111;
        words[8 * PAGE] = 0b1111_1111_1110_1000;
        assert_eq!(highest_run(&words, 4), 16_383, "a run over the edge of two bit pages");
    }

    #[test]
    fn an_image_that_cannot_be_searched_gives_0() {
        let beyond = 1 << 16 | 3;
        let unsearched = [
            vec![],
            vec![0; PAGE - 1],
            image(20, 0),
            image(20, 20),
            image(20, beyond),
            image(16_385, 16_384),
            image(140_734, 3),
        ];
        for words in unsearched {
            assert_eq!((lowest_free(&words, 0), highest_run(&words, 1)), (0, 0));
        }
        assert_eq!(highest_run(&image(20, 3), 0), 0, "a run of no pages");
    }
}
