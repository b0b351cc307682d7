//! What stands behind the end of names and types (document 02, T-03): nothing but zeros, as on old volumes, what the calls write, or leftovers.

use crate::damage::Words;
use crate::random::Random;
use crate::scene::Scene;
use crate::words::*;

/// What ends a name or type in its field.
#[derive(Clone, Copy, Debug, PartialEq, Eq, PartialOrd, Ord)]
pub enum End {
    Apostrophe,
    Zero,
}

impl End {
    pub const ALL: [End; 2] = [End::Apostrophe, End::Zero];

    pub fn byte(self) -> u8 {
        ENDS[self as usize]
    }

    pub fn words(self) -> &'static str {
        ["apostrophe", "zero byte"][self as usize]
    }
}

/// How a field is filled up.
#[derive(Clone, Copy, Debug, PartialEq, Eq, PartialOrd, Ord)]
pub enum Fill {
    /// Not at all: the name is all of the field.
    Full,
    /// With zeros, as on old volumes.
    Zeros,
    /// With one apostrophe, then zeros, as it is written.
    Written,
    /// With an end, then something that is not all zero.
    Left(End),
}

impl Fill {
    pub const ALL: [Fill; 5] = [Fill::Full, Fill::Zeros, Fill::Written, Fill::Left(End::Apostrophe), Fill::Left(End::Zero)];

    /// What a field is filled up with.
    pub fn of(field: &[u8]) -> Fill {
        let Some(end) = field.iter().position(|byte| ENDS.contains(byte)) else { return Fill::Full };
        let left = field[end + 1..].iter().any(|&byte| byte != 0);
        match (field[end], left) {
            (APOSTROPHE, false) => Fill::Written,
            (APOSTROPHE, true) => Fill::Left(End::Apostrophe),
            (_, false) => Fill::Zeros,
            (_, true) => Fill::Left(End::Zero),
        }
    }

    pub fn words(self) -> String {
        match self {
            Fill::Full => "no fill".to_string(),
            Fill::Zeros => "zeros".to_string(),
            Fill::Written => "one apostrophe, then zeros".to_string(),
            Fill::Left(end) => format!("{}, then leftovers", end.words()),
        }
    }

    /// A field of so many bytes with this name or type; a full one is as it is, and one byte is too few for leftovers.
    pub fn field(self, random: &mut Random, name: &[u8], length: usize) -> Vec<u8> {
        let mut field = name.to_vec();
        field.resize(length, 0);
        match self {
            Fill::Written if name.len() < length => field[name.len()] = APOSTROPHE,
            Fill::Left(end) if name.len() < length => {
                field[name.len()] = end.byte();
                leave(random, &mut field[name.len() + 1..]);
            }
            _ => {}
        }
        field
    }
}

/// Leftovers that are not all zero: the rest of a longer name, bytes of one kind, or any.
fn leave(random: &mut Random, left: &mut [u8]) {
    let kinds: [&[u8]; 6] = [b"ABCXYZ0189-", b"abcxyz", b"'", b"'\0A", b" .:,_@[`{\x01\x7F", b"\x80\xA7\xAD\xC1\xFF"];
    let kind = *random.pick(&kinds);
    let any = random.one_in(3);
    left.iter_mut().for_each(|byte| *byte = if any { random.word() as u8 } else { *random.pick(kind) });
    if left.iter().all(|&byte| byte == 0) {
        left.iter_mut().take(1).for_each(|byte| *byte = b'A');
    }
}

/// Writes a name or type into its field, filled up by chance.
pub fn put_name(random: &mut Random, words: &mut [u16], name: &[u8]) {
    let fill = *random.pick(&Fill::ALL);
    put_bytes(words, &fill.field(random, name, 2 * words.len()));
}

/// Where the fields of names and types lie, and their words: the volume's, the users', the files'.
pub fn fields(scene: &Scene) -> Vec<(usize, usize)> {
    let users = scene.users.iter().map(|user| (user.at + NAME, 8));
    let files = scene.files.iter().flat_map(|file| [(file.at + NAME, 8), (file.at + TYPE, 2)]);
    [(VOLUME_NAME, 8)].into_iter().chain(users).chain(files).collect()
}

/// Another fill for some of the names and types that are there.
pub fn refill(random: &mut Random, image: &[u16], scene: &Scene) -> Words {
    let mut words = Words::new();
    for (at, length) in fields(scene) {
        if random.one_in(2) {
            let mut field = vec![0; length];
            put_name(random, &mut field, &bytes_of(&image[at..at + length]));
            words.extend((at..).zip(field));
        }
    }
    words
}

/// The image with other fills; one in three is left as its calls have written it.
pub fn refilled(random: &mut Random, image: &mut [u16]) {
    if !random.one_in(3) {
        let scene = Scene::read(image);
        refill(random, image, &scene).into_iter().for_each(|(at, word)| image[at] = word);
    }
}

#[cfg(test)]
mod tests {
    use super::*;

    /// Each fill is what it is made as, and leaves the name.
    #[test]
    fn fills_are_as_made() {
        let mut random = Random::of_round(3, 0);
        for length in 1..15 {
            for fill in Fill::ALL.into_iter().filter(|&fill| fill != Fill::Full) {
                let name = vec![b'A'; length];
                let field = fill.field(&mut random, &name, 16);
                let mut words = [0; 8];
                put_bytes(&mut words, &field);
                assert_eq!((Fill::of(&field), bytes_of(&words), to_bytes(&words)), (fill, name, field));
            }
        }
        assert_eq!(Fill::of(&Fill::Written.field(&mut random, b"SIXTEEN-LETTERS-", 16)), Fill::Full);
        assert_eq!(Fill::Left(End::Apostrophe).field(&mut random, b"FIFTEEN-LETTERS", 16), b"FIFTEEN-LETTERS'");
    }
}
