//! The two directions of a conversion.

use crate::calls::Call;
use crate::fills::{fields, Fill};
use crate::scene::Scene;
use crate::words::*;

#[derive(Clone, Copy, Debug, PartialEq, Eq, PartialOrd, Ord)]
pub enum Way {
    ToApostrophe,
    ToZeros,
}

impl Way {
    pub const ALL: [Way; 2] = [Way::ToApostrophe, Way::ToZeros];

    /// The direction of a call, if it converts.
    pub fn of(call: &Call) -> Option<Way> {
        Way::ALL.into_iter().find(|way| way.call() == *call)
    }

    pub fn call(self) -> Call {
        match self {
            Way::ToApostrophe => Call::ConvertToApostrophe,
            Way::ToZeros => Call::ConvertToZeros,
        }
    }

    pub fn back(self) -> Way {
        match self {
            Way::ToApostrophe => Way::ToZeros,
            Way::ToZeros => Way::ToApostrophe,
        }
    }

    /// The fill that it starts from, and the one that it writes.
    pub fn from(self) -> Fill {
        self.back().to()
    }

    pub fn to(self) -> Fill {
        match self {
            Way::ToApostrophe => Fill::Written,
            Way::ToZeros => Fill::Zeros,
        }
    }

    pub fn words(self) -> &'static str {
        match self {
            Way::ToApostrophe => "convert to apostrophe",
            Way::ToZeros => "convert to zeros",
        }
    }
}

/// The image with all its names and types filled up so, and no other word changed. Leftovers are no fill to bring a volume to.
pub fn all_filled(image: &[u16], fill: Fill) -> Vec<u16> {
    let mut filled = image.to_vec();
    for (at, words) in fields(&Scene::read(image)) {
        let mut field = bytes_of(&image[at..at + words]);
        if fill == Fill::Written {
            field.push(APOSTROPHE);
        }
        field.resize(2 * words, 0);
        put_bytes(&mut filled[at..at + words], &field);
    }
    filled
}

#[cfg(test)]
mod tests {
    use super::*;
    use crate::random::Random;
    use crate::volumes::with_names;

    /// A direction and its call, and what it starts from and writes.
    #[test]
    fn directions() {
        for way in Way::ALL {
            assert_eq!((Way::of(&way.call()), way.back().back()), (Some(way), way));
            assert_eq!((way.from(), way.to()), (way.back().to(), way.back().from()));
        }
        assert_eq!((Way::ToApostrophe.from(), Way::of(&Call::Check)), (Fill::Zeros, None));
    }

    /// All fields are filled up so, with the names that they had.
    #[test]
    fn all_fields_are_filled() {
        let mut random = Random::of_round(6, 0);
        let image = with_names(&mut random, 24);
        for fill in [Fill::Zeros, Fill::Written] {
            let filled = all_filled(&image, fill);
            for (at, words) in fields(&Scene::read(&image)) {
                let field = to_bytes(&filled[at..at + words]);
                assert!([fill, Fill::Full].contains(&Fill::of(&field)));
                assert_eq!(bytes_of(&filled[at..at + words]), bytes_of(&image[at..at + words]));
            }
            assert_eq!(filled[VOLUME_NAME + 2], if fill == Fill::Zeros { 0 } else { 0x2700 });
        }
    }
}
