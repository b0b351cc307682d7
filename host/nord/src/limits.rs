//! The limits that are said in words, each in one place.

/// `proved::MOST_PAGES` as it stands in a text.
macro_rules! most_pages {
    () => {
        "140,733"
    };
}

/// `proved::PAGES_TO_A_BIT_PAGE` as it stands in a text.
macro_rules! pages_to_a_bit_page {
    () => {
        "16,384"
    };
}

pub(crate) use {most_pages, pages_to_a_bit_page};

#[cfg(test)]
mod tests {
    use crate::map::grouped;

    #[test]
    fn the_texts_are_the_librarys_numbers() {
        assert_eq!(most_pages!(), grouped(proved::MOST_PAGES));
        assert_eq!(pages_to_a_bit_page!(), grouped(proved::PAGES_TO_A_BIT_PAGE));
    }
}
