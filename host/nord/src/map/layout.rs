//! How many pages make a row and a cell of a map, and how large a cell is.

/// The most cells of a picture. A volume of no more pages has a cell for each of them, in a terminal too.
const CELLS: usize = 16_384;

/// The most rows in a terminal where a character is several pages: about a screen.
const ROWS: usize = 40;

/// The least characters in a line in a terminal: what a name, or a pack's numbers, take.
pub const NARROWEST: usize = 20;

/// Pages to a cell of a picture.
pub fn pages_to_a_cell(pages: usize) -> usize {
    fewest(pages, CELLS)
}

/// Pages to a character of a terminal with so many characters to a row.
pub fn pages_to_a_character(pages: usize, columns: usize) -> usize {
    match pages <= CELLS {
        true => 1,
        false => fewest(pages, ROWS * columns.max(1)),
    }
}

/// The lowest power of two that makes at most so many cells of the pages.
fn fewest(pages: usize, cells: usize) -> usize {
    let mut each = 1;
    while pages.div_ceil(each) > cells {
        each *= 2;
    }
    each
}

/// Cells to a row of a picture: the power of two that makes it about square, so that rows start at round page numbers. Rows of 16 and
/// more are whole words of the bit file.
pub fn side(cells: usize) -> usize {
    let mut side = 8;
    while side * side < cells {
        side *= 2;
    }
    side
}

/// Characters to a row of a terminal so many columns wide. Characters are about twice as high as wide, so twice the side looks square.
pub fn columns(pages: usize, width: usize) -> usize {
    let mut columns = 2 * side(pages);
    while columns > 8 && columns > width {
        columns /= 2;
    }
    columns
}

/// The side of a cell in a picture with so many to a row.
pub fn cell(side: usize) -> usize {
    match side {
        8 => 38,
        16 => 28,
        32 => 19,
        64 => 12,
        128 => 7,
        _ => 4,
    }
}

#[cfg(test)]
mod tests {
    use super::*;

    #[test]
    fn rows_are_powers_of_two() {
        let sides = [8, 16, 64, 65, 154, 256, 1024, 4096, 16_384].map(side);
        assert_eq!(sides, [8, 8, 8, 16, 16, 16, 32, 64, 128]);
        assert_eq!([0, 7, 8, 40, 74, 300].map(|width| columns(16_384, width)), [8, 8, 8, 32, 64, 256]);
        assert_eq!([10, 74, 300].map(|width| columns(154, width)), [8, 32, 32]);
    }

    #[test]
    fn a_volume_of_16384_pages_has_a_cell_for_each() {
        for pages in [8, 154, 16_384] {
            assert_eq!((pages_to_a_cell(pages), pages_to_a_character(pages, 8)), (1, 1));
        }
    }

    #[test]
    fn larger_ones_have_no_more_cells_and_fit_a_screen() {
        let packs = [16_385, 32_768, 32_769, 37_035, 65_536, 140_733];
        assert_eq!(packs.map(pages_to_a_cell), [2, 2, 4, 4, 4, 16]);
        for pages in packs {
            for width in [0, 40, 80, 200] {
                let columns = columns(pages, width);
                let each = pages_to_a_character(pages, columns);
                let rows = pages.div_ceil(each * columns);
                assert!(
                    (17..=40).contains(&rows),
                    "{pages} pages, {width} wide: {rows} rows of {each} to a character"
                );
            }
        }
    }
}
