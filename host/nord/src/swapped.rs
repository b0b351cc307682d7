//! An image whose words have the low byte first, as some tools write them: unsound as it stands, and sound with the bytes of each word exchanged.

use crate::answers::{item, Refusal};
use serde::Serialize;
use std::path::Path;

/// That an image is sound with the two bytes of each word exchanged.
#[derive(Clone, Copy, Debug, PartialEq, Eq)]
pub struct Swapped;

/// Looked for only in an image that is refused with 3: it costs a copy and a check.
pub fn hint(image: &[u16]) -> Option<Swapped> {
    let exchanged: Vec<u16> = image.iter().map(|word| word.swap_bytes()).collect();
    (proved::check(&exchanged).number == 0).then_some(Swapped)
}

/// The refusal of a whole image with 3, and this hint where it helps; any other refusal as it is.
pub fn tell(refusal: Refusal, image: &[u16], path: &Path) -> Refusal {
    if refusal.number != 3 || hint(image).is_none() {
        return refusal;
    }
    let words = format!(
        "the image is sound with the two bytes of each word exchanged (it has the low byte first): dd if={} of=swapped.img conv=swab",
        path.display()
    );
    refusal.also(item("swapped", &words)).detailed(Told { swapped: true })
}

/// The hint for programs.
#[derive(Serialize)]
struct Told {
    swapped: bool,
}

#[cfg(test)]
mod tests {
    use super::*;

    #[test]
    fn only_what_is_sound_the_other_way_about() {
        let mut image = vec![0; 8 * proved::PAGE];
        assert_eq!(proved::format(&mut image, b"YARD", None).number, 0);
        assert_eq!(hint(&image), None, "a sound image");
        let mut exchanged: Vec<u16> = image.iter().map(|word| word.swap_bytes()).collect();
        assert_eq!(proved::check(&exchanged).number, 3);
        assert_eq!(hint(&exchanged), Some(Swapped));
        exchanged[1023] ^= 1 << 8;
        assert_eq!(hint(&exchanged), None, "unsound either way");
    }
}
