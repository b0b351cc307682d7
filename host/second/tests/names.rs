//! Names and types as they are stored (document 02, T-03): what ends them, what
//! may stand behind the end, what is written, and what does not look at it.

mod common;
use common::*;
use second::*;

/// Where the volume's name is, and the entries of user 0 and of his file 0.
const VOLUME: usize = 1008;
const USER: usize = 2 * 1024;
const OBJECT: usize = 4 * 1024;

/// The bytes of a name's field and of a type's.
type Name = [u8; 16];
type Type = [u8; 4];

/// Writes the bytes of a field as they stand.
fn put(image: &mut [u16], at: usize, bytes: &[u8]) {
    for (word, two) in image[at..].iter_mut().zip(bytes.chunks(2)) {
        *word = u16::from_be_bytes([two[0], two[1]]);
    }
}

/// The bytes of a field.
fn field(image: &[u16], at: usize, length: usize) -> Vec<u8> {
    bytes(&image[at..at + length / 2])
}

/// The check's answer with other bytes in a field.
fn with(image: &[u16], at: usize, field: &[u8]) -> Reply {
    let mut image = image.to_vec();
    put(&mut image, at, field);
    check(&image)
}

#[test]
fn legal_names() {
    let image = reads(32, 6, 1);
    let names: [&Name; 10] = [
        b"OTHER'\0\0\0\0\0\0\0\0\0\0",
        b"OTHER\0\0\0\0\0\0\0\0\0\0\0",
        b"OTHER'left over!",
        b"OTHER\0left over!",
        b"OTHER''''''''''\0",
        b"OTHER\0'A'B'C'D'E",
        b"O'\xFF\xFF\xFF\xFF\xFF\xFF\xFF\xFF\xFF\xFF\xFF\xFF\xFF\xFF",
        b"FIFTEEN-LETTERS'",
        b"FIFTEEN-LETTERS\0",
        b"SIXTEEN-LETTERS-",
    ];
    for (name, at) in names
        .into_iter()
        .flat_map(|name| [VOLUME, USER + 1, OBJECT + 1].map(|at| (name, at)))
    {
        assert_eq!(with(&image, at, name), done(8), "{:?}", String::from_utf8_lossy(name));
    }
}

#[test]
fn illegal_names() {
    let image = reads(32, 6, 1);
    let names: [&Name; 9] = [
        &[0; 16],
        b"'\0\0\0\0\0\0\0\0\0\0\0\0\0\0\0",
        b"'OTHER'\0\0\0\0\0\0\0\0\0",
        b"\0OTHER'\0\0\0\0\0\0\0\0\0",
        b"OTHEr'\0\0\0\0\0\0\0\0\0\0",
        b"OTHER '\0\0\0\0\0\0\0\0\0",
        b"OTHER\x60\0\0\0\0\0\0\0\0\0\0",
        b"FIFTEEN-LETTERs'",
        b"SIXTEEN-LETTERS\x26",
    ];
    let places = [
        (VOLUME, unsound(1, 0, 1008)),
        (USER + 1, unsound(4, 2, 1)),
        (OBJECT + 1, unsound(6, 4, 1)),
    ];
    for (name, (at, told)) in names.into_iter().flat_map(|name| places.map(|place| (name, place))) {
        assert_eq!(with(&image, at, name), told, "{:?}", String::from_utf8_lossy(name));
    }
}

#[test]
fn legal_and_illegal_types() {
    let image = reads(32, 6, 1);
    let short: [&Type; 5] = [b"T'\0\0", b"T\0\0\0", b"T'xx", b"T\0xx", b"T'''"];
    let others: [&Type; 5] = [b"T-1'", b"T-1\0", b"'ata", b"\0ata", b"T-12"];
    for kind in short.into_iter().chain(others) {
        assert_eq!(with(&image, OBJECT + 9, kind), done(8), "{kind:?}");
    }
    let illegal: [&Type; 5] = [b"t'\0\0", b"T-a'", b"T-1a", b" '\0\0", b"DAT\x28"];
    for kind in illegal {
        assert_eq!(with(&image, OBJECT + 9, kind), unsound(6, 4, 9), "{kind:?}");
    }
}

/// Names of some lengths, and the fields that are written for them.
const WRITTEN: [(&[u8], &Name); 5] = [
    (b"YARD", b"YARD'\0\0\0\0\0\0\0\0\0\0\0"),
    (b"READS", b"READS'\0\0\0\0\0\0\0\0\0\0"),
    (b"A", b"A'\0\0\0\0\0\0\0\0\0\0\0\0\0\0"),
    (b"FIFTEEN-LETTERS", b"FIFTEEN-LETTERS'"),
    (b"SIXTEEN-LETTERS-", b"SIXTEEN-LETTERS-"),
];

/// The same of types.
const TYPES: [(&[u8], &Type); 5] = [
    (b"DATA", b"DATA"),
    (b"T-1", b"T-1'"),
    (b"AB", b"AB'\0"),
    (b"A", b"A'\0\0"),
    (b"", b"'\0\0\0"),
];

/// Over old words a short name gets one apostrophe and zeros, a full one none.
#[test]
fn what_is_written() {
    let mut image = vec![0xABCD; 32 * 1024];
    for (name, written) in WRITTEN {
        assert_eq!(format(&mut image, name, None), done(0));
        assert_eq!(field(&image, VOLUME, 16), written);
    }
    for (n, (name, written)) in (0..).zip(WRITTEN) {
        assert_eq!(create_user(&mut image, name), done(n));
        assert_eq!(field(&image, USER + 32 * n as usize + 1, 16), written);
    }
    assert_eq!(give(&mut image, 0, 9), done(0));
    for (n, ((name, written), (kind, ended))) in (0..).zip(WRITTEN.into_iter().zip(TYPES)) {
        assert_eq!(create_indexed(&mut image, 0, name, kind, 0), done(2 * n));
        assert_eq!(create_contiguous(&mut image, 0, name, b"RUN", 0, 1), done(2 * n + 1));
        let entry = OBJECT + 64 * n as usize;
        assert_eq!(field(&image, entry + 1, 16), written);
        assert_eq!(field(&image, entry + 9, 4), ended);
        assert_eq!(field(&image, entry + 32 + 1, 16), written);
        assert_eq!(field(&image, entry + 32 + 9, 4), b"RUN'");
    }
}

/// The numbers to check by of the readings.
#[test]
fn numbers_to_check_by() {
    let mut image = reads(32, 6, 1);
    create_indexed(&mut image, 0, b"READS", b"", 0);
    assert_eq!(image[USER + 1..][..8], [0x444F, 0x434B, 0x2700, 0, 0, 0, 0, 0]);
    assert_eq!(image[OBJECT + 9..][..2], [0x4441, 0x5441]);
    assert_eq!(image[OBJECT + 32 + 9..][..2], [0x2700, 0]);
}

/// DOCK with four fills, each once before each.
fn docks() -> impl Iterator<Item = (&'static Name, &'static Name)> {
    const FILLS: [&Name; 4] = [
        b"DOCK'\0\0\0\0\0\0\0\0\0\0\0",
        b"DOCK\0\0\0\0\0\0\0\0\0\0\0\0",
        b"DOCK'left over!!",
        b"DOCK\0'LEFT'OVER'",
    ];
    FILLS.into_iter().flat_map(|one| FILLS.map(|two| (one, two)))
}

/// A name with another fill is the same name: to finds, to creates, and to the
/// rules that forbid two.
#[test]
fn equal_whatever_the_fill() {
    let mut base = dock(32, 9);
    create_user(&mut base, b"RAMS");
    create_indexed(&mut base, 0, b"DOCK", b"", 0);
    create_indexed(&mut base, 0, b"RAMS", b"", 0);
    for (one, two) in docks() {
        let mut image = base.clone();
        put(&mut image, USER + 1, one);
        assert_eq!(find_user(&image, b"DOCK"), done(0));
        refuses(&image, 5, |image| create_user(image, b"DOCK"));
        assert_eq!(with(&image, USER + 33, two), unsound(4, 2, 33));
        put(&mut image, OBJECT + 1, two);
        assert_eq!(find_file(&image, 0, b"DOCK", b""), done(0));
        refuses(&image, 5, |image| create_indexed(image, 0, b"DOCK", b"", 0));
        refuses(&image, 5, |image| create_contiguous(image, 0, b"DOCK", b"", 0, 1));
        assert_eq!(with(&image, OBJECT + 33, one), unsound(6, 4, 33));
    }
}

/// Two files of one name whose types differ in their fill alone are two of one
/// name and type; where a byte before the end differs they are not.
#[test]
fn types_are_equal_whatever_their_fill() {
    let mut image = dock(32, 9);
    create_indexed(&mut image, 0, b"READS", b"A", 0);
    create_indexed(&mut image, 0, b"READS", b"B", 0);
    let fills: [&Type; 4] = [b"A'\0\0", b"A\0\0\0", b"A'BC", b"A\0BC"];
    for (one, two) in fills.into_iter().flat_map(|one| fills.map(|two| (one, two))) {
        put(&mut image, OBJECT + 9, one);
        assert_eq!(find_file(&image, 0, b"READS", b"A"), done(0));
        refuses(&image, 5, |image| create_indexed(image, 0, b"READS", b"A", 0));
        assert_eq!(with(&image, OBJECT + 41, two), unsound(6, 4, 33));
    }
    let none: [&Type; 3] = [b"'A\0\0", b"\0ABC", &[0; 4]];
    for (one, two) in none.into_iter().flat_map(|one| none.map(|two| (one, two))) {
        put(&mut image, OBJECT + 9, one);
        assert_eq!(find_file(&image, 0, b"READS", b""), done(0));
        assert_eq!(find_file(&image, 0, b"READS", b"A"), refused(4));
        refuses(&image, 5, |image| create_indexed(image, 0, b"READS", b"", 0));
        assert_eq!(with(&image, OBJECT + 41, two), unsound(6, 4, 33));
    }
}

/// All of the field counts: 15 bytes are not 16, and 3 are not 4.
#[test]
fn all_of_the_field() {
    let mut image = dock(32, 9);
    let names: [&[u8]; 3] = [b"SIXTEEN-LETTERS-", b"SIXTEEN-LETTERS", b"SIXTEEN-LETTERS0"];
    for (n, name) in (1..).zip(names) {
        assert_eq!(create_user(&mut image, name), done(n));
        assert_eq!(find_user(&image, name), done(n));
    }
    let types: [&[u8]; 4] = [b"DATA", b"DAT", b"DAT0", b""];
    for (n, kind) in (0..).zip(types) {
        assert_eq!(create_indexed(&mut image, 0, b"READS", kind, 0), done(n));
        assert_eq!(find_file(&image, 0, b"READS", kind), done(n));
    }
    assert_eq!(check(&image).number, 0);
    assert_eq!(with(&image, USER + 33, b"SIXTEEN-LETTERS'"), unsound(4, 2, 65));
    assert_eq!(with(&image, OBJECT + 9, b"DAT\0"), unsound(6, 4, 33));
}

/// Old fills: the volume's, a user's, a file's, and that of its type.
const OLD: [(usize, &[u8]); 4] = [
    (VOLUME, b"YARD'left over!!"),
    (USER + 1, b"DOCK\0left over!!"),
    (OBJECT + 1, b"READS'left over!"),
    (OBJECT + 9, b"D'AT"),
];

/// Steps that write no name leave its words.
#[test]
fn steps_that_write_no_name() {
    type Step = fn(&mut [u16]) -> Reply;
    let steps: [Step; 11] = [
        |image| give(image, 0, 3),
        |image| take(image, 0, 2),
        |image| grow(image, 0, 0),
        |image| shrink(image, 0, 0),
        |image| write_page(image, 0, 0, 0, &[7; 1024]),
        |image| note_open(image, 0, 0),
        |image| create_user(image, b"EWES"),
        |image| delete_user(image, 1),
        |image| create_indexed(image, 0, b"READS", b"", 0),
        |image| create_contiguous(image, 0, b"READS", b"RUN", 0, 1),
        |image| delete_file(image, 0, 1),
    ];
    let mut image = reads(40, 9, 1);
    create_user(&mut image, b"RAMS");
    OLD.into_iter().for_each(|(at, bytes)| put(&mut image, at, bytes));
    for step in steps {
        assert_eq!(step(&mut image).number, 0);
        assert_eq!(check(&image).number, 0);
        OLD.into_iter()
            .for_each(|(at, bytes)| assert_eq!(field(&image, at, bytes.len()), bytes));
    }
}

/// Steps that write one leave nothing of an old fill.
#[test]
fn steps_that_write_a_name() {
    let mut image = reads(40, 9, 1);
    OLD.into_iter().for_each(|(at, bytes)| put(&mut image, at, bytes));
    assert_eq!(delete_file(&mut image, 0, 0), done(0));
    assert!(image[OBJECT..OBJECT + 32].iter().all(|&word| word == 0));
    assert_eq!(create_indexed(&mut image, 0, b"READS", b"D", 0), done(0));
    assert_eq!(field(&image, OBJECT + 1, 16), b"READS'\0\0\0\0\0\0\0\0\0\0");
    assert_eq!(field(&image, OBJECT + 9, 4), b"D'\0\0");
    assert_eq!(format(&mut image, b"YARD", None), done(0));
    assert_eq!(field(&image, VOLUME, 16), b"YARD'\0\0\0\0\0\0\0\0\0\0\0");
}

#[test]
fn the_listing_shows_no_fill() {
    let mut image = reads(16, 5, 1);
    create_indexed(&mut image, 0, b"A", b"", 0);
    put(&mut image, VOLUME, b"FIFTEEN-LETTERS'");
    put(&mut image, USER + 1, b"SIXTEEN-LETTERS-");
    put(&mut image, OBJECT + 1, b"READS'left over!");
    put(&mut image, OBJECT + 9, b"DA\0x");
    put(&mut image, OBJECT + 41, b"'old");
    let expected = "VOLUME FIFTEEN-LETTERS PAGES 16 RESERVED 8 UNRESERVED 5\n\
                    USER 0 SIXTEEN-LETTERS- GIVEN 5 USED 2\n\
                    FILE 0 READS:DA PAGES 1 INDEXED\n\
                    FILE 1 A: PAGES 0 EMPTY\n";
    assert_eq!(String::from_utf8(list(&bytes(&image))).unwrap(), expected);
}

/// Where the fields of a volume's names and types lie, and their bytes: its own,
/// those of the users on page 2, and of user 0's files on page 4.
fn fields(image: &[u16]) -> Vec<(usize, usize)> {
    let used = |page: usize| (0..32).map(move |n| page + 32 * n).filter(|&at| image[at] & 32_768 != 0);
    let names = used(USER).chain(used(OBJECT)).map(|at| (at + 1, 16));
    let types = used(OBJECT).map(|at| (at + 9, 4));
    [(VOLUME, 16)].into_iter().chain(names).chain(types).collect()
}

/// Puts another fill behind each name and type.
fn refill(image: &mut [u16], chance: &mut Chance) {
    for (at, length) in fields(image) {
        let mut bytes = field(image, at, length);
        let end = bytes.iter().position(|byte| [39, 0].contains(byte)).unwrap_or(length);
        for (n, byte) in bytes[end..].iter_mut().enumerate() {
            let any = [0, 39, b'A', b'a', chance.below(256) as u8];
            *byte = any[chance.below(if n == 0 { 2 } else { 5 }) as usize];
        }
        put(image, at, &bytes);
    }
}

/// The same calls on two volumes whose fills differ are answered alike, and
/// leave the same words but for the names'.
#[test]
fn no_answer_looks_at_the_fill() {
    let mut chance = Chance::new(77);
    let mut one = dock(32, 20);
    create_indexed(&mut one, 0, b"A", b"", 0);
    let mut two = one.clone();
    let names: [&[u8]; 6] = [b"A", b"B", b"AB", b"DOCK", b"FIFTEEN-LETTERS", b"SIXTEEN-LETTERS-"];
    let types: [&[u8]; 3] = [b"", b"A", b"DATA"];
    for _ in 0..250 {
        refill(&mut two, &mut chance);
        let (name, kind) = (names[chance.below(6) as usize], types[chance.below(3) as usize]);
        let (which, file) = (chance.below(9), chance.below(8) as usize);
        let call = |image: &mut Vec<u16>| match which {
            0 => create_user(image, name),
            1 => find_user(image, name),
            2 => find_file(image, 0, name, kind),
            3 | 4 => create_indexed(image, 0, name, kind, 7),
            5 => create_contiguous(image, 0, name, kind, 7, 1),
            6 => delete_file(image, 0, file),
            7 => delete_user(image, file),
            _ => grow(image, 0, file),
        };
        assert_eq!(call(&mut one), call(&mut two));
        assert_eq!(check(&one), check(&two));
        assert_eq!(list(&bytes(&one)), list(&bytes(&two)));
        let names: Vec<usize> = fields(&one).iter().flat_map(|&(at, length)| at..at + length / 2).collect();
        assert!((0..one.len()).all(|at| one[at] == two[at] || names.contains(&at)));
    }
}
