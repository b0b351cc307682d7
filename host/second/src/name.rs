//! Names and types: bytes of A-Z, 0-9 and hyphen, two to a word of their field,
//! the high byte first. A short one ends with an apostrophe or a zero byte, and
//! what stands behind that is nobody's (document 02, T-03).

/// Words of a name and of a type in an entry.
pub const NAME_WORDS: usize = 8;
pub const TYPE_WORDS: usize = 2;

/// What ends a short name or type as it is written.
const APOSTROPHE: u8 = b'\'';

/// The bytes of the longest field, and all of them as a number's bits.
const MOST_BYTES: usize = 2 * NAME_WORDS;
const BITS: u32 = 8 * MOST_BYTES as u32;

fn is_legal_byte(byte: u8) -> bool {
    matches!(byte, b'A'..=b'Z' | b'0'..=b'9' | b'-')
}

/// A caller's name: 1 to 16 legal bytes, without fill.
pub fn is_name(bytes: &[u8]) -> bool {
    (1..=2 * NAME_WORDS).contains(&bytes.len()) && bytes.iter().all(|&b| is_legal_byte(b))
}

/// A caller's type: 0 to 4 legal bytes, without fill.
pub fn is_type(bytes: &[u8]) -> bool {
    bytes.len() <= 2 * TYPE_WORDS && bytes.iter().all(|&b| is_legal_byte(b))
}

/// What a short name or type is filled up with: zeros alone, as old volumes
/// have it, or one apostrophe and then zeros, as it is written.
#[derive(Clone, Copy, Debug, PartialEq, Eq)]
pub enum Fill {
    Zeros,
    Apostrophe,
}

impl Fill {
    /// The byte right behind a short one; all further bytes are zero.
    fn end(self) -> u8 {
        match self {
            Fill::Zeros => 0,
            Fill::Apostrophe => APOSTROPHE,
        }
    }
}

/// The words of a field with these bytes and, where they do not fill it, this
/// behind them.
fn fill_up<const N: usize>(bytes: impl Iterator<Item = u8>, fill: Fill) -> [u16; N] {
    let mut words = [0; N];
    let ended = bytes.chain([fill.end()]).take(2 * N);
    for (place, byte) in ended.enumerate() {
        words[place / 2] |= u16::from(byte) << if place % 2 == 0 { 8 } else { 0 };
    }
    words
}

/// The words that are written for a legal name or type: its bytes, where these
/// do not fill the field one apostrophe, then zeros.
pub fn pack<const N: usize>(bytes: &[u8]) -> [u16; N] {
    fill_up(bytes.iter().copied(), Fill::Apostrophe)
}

/// A name or type as its field has it: the bytes before the first apostrophe or
/// zero byte, or all bytes of the field. They are kept as one number, the first
/// byte highest and zeros behind the last; as none of them is zero, two are
/// equal exactly where their bytes are.
#[derive(Clone, Copy, PartialEq, Eq, PartialOrd, Ord, Hash)]
pub struct Stored(u128);

impl Stored {
    /// What the words of a field have. A field shorter than the longest has
    /// zeros behind it here, which end it.
    pub fn read(field: &[u16]) -> Stored {
        let whole = field.iter().fold(0, |all, &word| all << 16 | u128::from(word));
        let all = whole << (BITS - 16 * field.len() as u32);
        let ends = zero_bytes(all) | zero_bytes(all ^ each_byte(APOSTROPHE));
        let before = ends.leading_zeros() & !7;
        Stored(all & !u128::MAX.checked_shr(before).unwrap_or(0))
    }

    /// What a field with a caller's legal name or type has, whatever its fill.
    pub fn of(bytes: &[u8]) -> Stored {
        let all = bytes.iter().fold(0, |all, &byte| all << 8 | u128::from(byte));
        Stored(all.checked_shl(BITS - 8 * bytes.len() as u32).unwrap_or(0))
    }

    fn length(self) -> usize {
        MOST_BYTES - self.0.trailing_zeros() as usize / 8
    }

    /// Its bytes, without what ends it.
    pub fn bytes(self) -> impl Iterator<Item = u8> {
        self.0.to_be_bytes().into_iter().take(self.length())
    }

    /// The words of its field, were it filled up so.
    pub fn filled<const N: usize>(self, fill: Fill) -> [u16; N] {
        fill_up(self.bytes(), fill)
    }

    /// Whether it is a legal name: there is at least one byte, and all are legal.
    pub fn is_name(self) -> bool {
        self.0 != 0 && self.is_type()
    }

    /// Whether it is a legal type, which may have no bytes.
    pub fn is_type(self) -> bool {
        let bytes = self.0.to_be_bytes();
        bytes[..self.length()].iter().all(|&byte| is_legal_byte(byte))
    }
}

/// A number with this byte in each of its places.
const fn each_byte(byte: u8) -> u128 {
    u128::MAX / 0xFF * byte as u128
}

/// Bit 7 of each byte that is zero, and no other bit. Added to the lower seven
/// bits of a byte, 127 carries into bit 7 unless they are all zero, and never
/// into the next byte.
fn zero_bytes(number: u128) -> u128 {
    let low = each_byte(0x7F);
    !(((number & low) + low) | number | low)
}

#[cfg(test)]
mod tests {
    use super::*;

    /// Bytes as the words of a field.
    fn field<const N: usize>(bytes: [u8; N]) -> Vec<u16> {
        bytes.chunks(2).map(|two| u16::from_be_bytes([two[0], two[1]])).collect()
    }

    /// What a field has, byte for byte, as the request says it.
    fn before_the_end(bytes: &[u8]) -> Vec<u8> {
        let end = bytes.iter().position(|&byte| byte == 39 || byte == 0);
        bytes[..end.unwrap_or(bytes.len())].to_vec()
    }

    fn read(bytes: [u8; 16]) -> Vec<u8> {
        Stored::read(&field(bytes)).bytes().collect()
    }

    #[test]
    fn every_byte_in_every_place() {
        for byte in 0..=255 {
            for place in 0..16 {
                let mut bytes = *b"SIXTEEN-LETTERS-";
                bytes[place] = byte;
                assert_eq!(read(bytes), before_the_end(&bytes), "byte {byte} in place {place}");
            }
            for place in 0..4 {
                let mut bytes = *b"DATA";
                bytes[place] = byte;
                let stored: Vec<u8> = Stored::read(&field(bytes)).bytes().collect();
                assert_eq!(stored, before_the_end(&bytes), "byte {byte} in place {place} of a type");
            }
        }
    }

    /// Any two bytes side by side: neither changes what the other is taken for.
    #[test]
    fn every_two_bytes() {
        for two in 0..=u16::MAX {
            let [one, other] = two.to_be_bytes();
            let bytes = *b"AB--EFGHIJKLMNOP";
            let (mut first, mut last) = (bytes, bytes);
            (first[2], first[3]) = (one, other);
            (last[14], last[15]) = (one, other);
            assert_eq!(read(first), before_the_end(&first));
            assert_eq!(read(last), before_the_end(&last));
        }
    }

    #[test]
    fn the_first_end_counts() {
        assert_eq!(read(*b"AB'CD'EF\0GHIJKLM"), b"AB");
        assert_eq!(read(*b"AB\0CD'EF\0GHIJKLM"), b"AB");
        assert_eq!(read(*b"'B\0CD'EF\0GHIJKLM"), b"");
        assert_eq!(read(*b"\0B\0CD'EF\0GHIJKLM"), b"");
    }

    #[test]
    fn equal_whatever_the_fill() {
        let fills: [[u8; 16]; 5] = [
            *b"DOCK'\0\0\0\0\0\0\0\0\0\0\0",
            *b"DOCK\0\0\0\0\0\0\0\0\0\0\0\0",
            *b"DOCK'leftover \xFF-",
            *b"DOCK\0LEFT'OVER\0\0",
            *b"DOCK''''''''''''",
        ];
        for fill in fills {
            assert!(Stored::read(&field(fill)) == Stored::of(b"DOCK"));
            assert!(Stored::read(&field(fill)) != Stored::of(b"DOC"));
        }
        assert!(Stored::read(&field(*b"DOCK-'\0\0\0\0\0\0\0\0\0\0")) != Stored::of(b"DOCK"));
        assert!(Stored::read(&field(*b"'ATA")) == Stored::of(b""));
        assert!(Stored::read(&field(*b"\0ATA")) == Stored::of(b""));
        assert!(Stored::read(&field(*b"DATA")) == Stored::of(b"DATA"));
        assert!(Stored::read(&field(*b"SIXTEEN-LETTERS-")) == Stored::of(b"SIXTEEN-LETTERS-"));
    }

    #[test]
    fn legal_before_the_end() {
        let is_name = |bytes: [u8; 16]| Stored::read(&field(bytes)).is_name();
        assert!(is_name(*b"SIXTEEN-LETTERS-") && is_name(*b"FIFTEEN-LETTERS'") && is_name(*b"FIFTEEN-LETTERS\0"));
        assert!(is_name(*b"A'lower case\xFF\x00\x01 ") && is_name(*b"A\0lower case\xFF\x00\x01 "));
        assert!(!is_name(*b"'OCK\0\0\0\0\0\0\0\0\0\0\0\0") && !is_name([0; 16]));
        assert!(!is_name(*b"DOCk'\0\0\0\0\0\0\0\0\0\0\0") && !is_name(*b"SIXTEEN-LETTERSs"));
        let is_type = |bytes: [u8; 4]| Stored::read(&field(bytes)).is_type();
        assert!(is_type(*b"DATA") && is_type(*b"DAT'") && is_type(*b"DAT\0") && is_type(*b"D'at") && is_type(*b"D\0at"));
        assert!(is_type(*b"'ata") && is_type(*b"\0ata") && is_type([0; 4]));
        assert!(!is_type(*b"DATa") && !is_type(*b"a'\0\0") && !is_type(*b" \0\0\0"));
    }

    /// The numbers to check by of the readings, and the longest and shortest.
    #[test]
    fn what_is_written() {
        assert_eq!(pack::<NAME_WORDS>(b"DOCK"), [0x444F, 0x434B, 0x2700, 0, 0, 0, 0, 0]);
        assert_eq!(pack::<NAME_WORDS>(b"READS"), [0x5245, 0x4144, 0x5327, 0, 0, 0, 0, 0]);
        assert_eq!(pack::<TYPE_WORDS>(b"DATA"), [0x4441, 0x5441]);
        assert_eq!(pack::<TYPE_WORDS>(b"T-1"), [0x542D, 0x3127]);
        assert_eq!(pack::<TYPE_WORDS>(b"A"), [0x4127, 0]);
        assert_eq!(pack::<TYPE_WORDS>(b""), [0x2700, 0]);
        assert_eq!(pack::<NAME_WORDS>(b"FIFTEEN-LETTERS")[7], 0x5327);
        assert_eq!(pack::<NAME_WORDS>(b"SIXTEEN-LETTERS-")[7], 0x532D);
    }

    /// With either fill, the longest and the shortest; a full one has none.
    #[test]
    fn filled_up() {
        let name = |bytes: &[u8], fill: Fill| Stored::of(bytes).filled::<NAME_WORDS>(fill);
        assert_eq!(name(b"DOCK", Fill::Apostrophe), [0x444F, 0x434B, 0x2700, 0, 0, 0, 0, 0]);
        assert_eq!(name(b"DOCK", Fill::Zeros), [0x444F, 0x434B, 0, 0, 0, 0, 0, 0]);
        assert_eq!(name(b"FIFTEEN-LETTERS", Fill::Apostrophe)[7], 0x5327);
        assert_eq!(name(b"FIFTEEN-LETTERS", Fill::Zeros)[7], 0x5300);
        let kind = |bytes: &[u8], fill: Fill| Stored::of(bytes).filled::<TYPE_WORDS>(fill);
        assert_eq!((kind(b"", Fill::Apostrophe), kind(b"", Fill::Zeros)), ([0x2700, 0], [0, 0]));
        for fill in [Fill::Zeros, Fill::Apostrophe] {
            assert_eq!(name(b"SIXTEEN-LETTERS-", fill)[7], 0x532D);
            assert_eq!(kind(b"DATA", fill), [0x4441, 0x5441]);
        }
    }

    /// What is written is read as it was asked for, of every length.
    #[test]
    fn written_and_read() {
        let bytes = b"SIXTEEN-LETTERS-";
        for length in 0..=16 {
            assert!(Stored::read(&pack::<NAME_WORDS>(&bytes[..length])) == Stored::of(&bytes[..length]));
        }
        for length in 0..=4 {
            assert!(Stored::read(&pack::<TYPE_WORDS>(&bytes[..length])) == Stored::of(&bytes[..length]));
        }
    }
}
