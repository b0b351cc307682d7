//! Conversion of old fill to new and back (document 02, T-04): what is
//! converted, what stands in the way, and what is not looked at.

mod common;
use common::*;
use second::*;

/// Where the volume's name is, and the entries of user 0 and of his file 0.
const VOLUME: usize = 1008;
const USER: usize = 2 * 1024;
const OBJECT: usize = 4 * 1024;

type Convert = fn(&mut [u16]) -> Reply;

/// A direction: its call, and the byte right behind a short name before it and
/// after it.
#[derive(Clone, Copy)]
struct Way {
    convert: Convert,
    back: Convert,
    from: u8,
    to: u8,
}

const WAYS: [Way; 2] = [
    Way {
        convert: convert_to_apostrophe,
        back: convert_to_zeros,
        from: 0,
        to: 39,
    },
    Way {
        convert: convert_to_zeros,
        back: convert_to_apostrophe,
        from: 39,
        to: 0,
    },
];

/// Writes the bytes of a field as they stand.
fn put(image: &mut [u16], at: usize, bytes: &[u8]) {
    for (word, two) in image[at..].iter_mut().zip(bytes.chunks(2)) {
        *word = u16::from_be_bytes([two[0], two[1]]);
    }
}

/// The bytes of a field.
fn field(image: &[u16], at: usize, length: usize) -> Vec<u8> {
    bytes(&image[at..at + length / 2])
}

/// A field of so many bytes: these, and where they do not fill it this byte,
/// then zeros.
fn ended(name: &[u8], end: u8, length: usize) -> Vec<u8> {
    let mut field = [name, &[end]].concat();
    field.resize(length, 0);
    field.truncate(length);
    field
}

/// The bytes before the first that ends a name.
fn before_the_end(field: &[u8]) -> &[u8] {
    let end = field.iter().position(|&byte| byte == 39 || byte == 0);
    &field[..end.unwrap_or(field.len())]
}

/// The fields that are converted, and their bytes: found by the layout of the
/// image, block after block.
fn fields(image: &[u16]) -> Vec<(usize, usize)> {
    let page = |block: u32, slot: usize| pair(image, block as usize * 1024 + 2 * slot);
    let block_of = |pointer: usize| pair(image, pointer) & 0x3FFF_FFFF;
    let users = (0..8).map(|slot| page(block_of(1018), slot)).collect::<Vec<u32>>();
    let blocks = match pair(image, 1016) >> 30 {
        2 => (0..4).map(|slot| page(block_of(1016), slot)).collect(),
        _ => vec![block_of(1016)],
    };
    let present = blocks.into_iter().filter(|&block| block != 0);
    let objects = present
        .flat_map(|block| (0..512).map(move |slot| page(block, slot)))
        .collect::<Vec<u32>>();
    let used = |pages: Vec<u32>| {
        let entries = pages.into_iter().filter(|&page| page != 0).map(|page| page as usize * 1024);
        let entries = entries.flat_map(|at| (0..32).map(move |n| at + 32 * n));
        entries.filter(|&at| image[at] & 32_768 != 0).collect::<Vec<usize>>()
    };
    let mut fields = vec![(VOLUME, 16)];
    if block_of(1018) != 0 {
        fields.extend(used(users).into_iter().map(|at| (at + 1, 16)));
        fields.extend(used(objects).into_iter().flat_map(|at| [(at + 1, 16), (at + 9, 4)]));
    }
    fields
}

/// Gives all names and types this byte for their end, then zeros.
fn fill(image: &mut [u16], end: u8) {
    for (at, length) in fields(image) {
        let old = field(image, at, length);
        put(image, at, &ended(before_the_end(&old), end, length));
    }
}

/// A volume with all lengths in it: user 0 has files whose types have 0 to 4
/// bytes; names have 1, 15 and 16 among others. All of it in this fill.
fn yard(end: u8) -> Vec<u16> {
    let mut image = reads(40, 9, 1);
    for name in [b"A" as &[u8], b"FIFTEEN-LETTERS", b"SIXTEEN-LETTERS-"] {
        create_user(&mut image, name);
        create_indexed(&mut image, 0, name, b"", 0);
    }
    for kind in [b"A" as &[u8], b"AB", b"ABC", b"ABCD"] {
        create_contiguous(&mut image, 0, b"READS", kind, 0, 1);
    }
    fill(&mut image, end);
    assert_eq!(check(&image).number, 0);
    image
}

/// What a done conversion leaves: every field with its bytes and the new fill,
/// and all other words as they were.
fn converted(image: &[u16], end: u8) -> Vec<u16> {
    let mut after = image.to_vec();
    fill(&mut after, end);
    after
}

/// The numbers to check by of the readings.
#[test]
fn the_yard_there_and_back() {
    let mut image = reads(16, 5, 1);
    assert_eq!(convert_to_zeros(&mut image), done(0));
    assert_eq!(image[VOLUME..][..8], [0x5941, 0x5244, 0, 0, 0, 0, 0, 0]);
    assert_eq!(image[USER + 1..][..8], [0x444F, 0x434B, 0, 0, 0, 0, 0, 0]);
    assert_eq!(image[OBJECT + 1..][..10], [0x5245, 0x4144, 0x5300, 0, 0, 0, 0, 0, 0x4441, 0x5441]);
    let old = image.clone();
    assert_eq!(convert_to_apostrophe(&mut image), done(0));
    assert_eq!(image[VOLUME..][..8], [0x5941, 0x5244, 0x2700, 0, 0, 0, 0, 0]);
    assert_eq!(image[USER + 1..][..8], [0x444F, 0x434B, 0x2700, 0, 0, 0, 0, 0]);
    assert_eq!(image[OBJECT + 1..][..10], [0x5245, 0x4144, 0x5327, 0, 0, 0, 0, 0, 0x4441, 0x5441]);
    assert!(image == reads(16, 5, 1));
    assert_eq!(convert_to_zeros(&mut image), done(0));
    assert!(image == old);
}

#[test]
fn every_length() {
    for way in WAYS {
        let image = yard(way.from);
        let mut after = image.clone();
        assert_eq!((way.convert)(&mut after), done(0));
        assert!(after == converted(&image, way.to));
        assert_eq!(check(&after), check(&image));
        assert_eq!((way.back)(&mut after), done(0));
        assert!(after == image);
    }
}

/// 15 letters get an apostrophe for their last byte, 16 none; the empty type is
/// short, one of four bytes is not.
#[test]
fn longest_and_shortest() {
    let mut image = yard(0);
    assert_eq!(convert_to_apostrophe(&mut image), done(0));
    assert_eq!(field(&image, USER + 33, 16), b"A'\0\0\0\0\0\0\0\0\0\0\0\0\0\0");
    assert_eq!(field(&image, USER + 65, 16), b"FIFTEEN-LETTERS'");
    assert_eq!(field(&image, USER + 97, 16), b"SIXTEEN-LETTERS-");
    let types: [&[u8; 4]; 8] = [b"DATA", b"'\0\0\0", b"'\0\0\0", b"'\0\0\0", b"A'\0\0", b"AB'\0", b"ABC'", b"ABCD"];
    for (n, kind) in types.into_iter().enumerate() {
        assert_eq!(field(&image, OBJECT + 32 * n + 9, 4), kind);
    }
    assert_eq!(image[OBJECT + 32 + 9..][..2], [0x2700, 0]);
    assert_eq!(convert_to_zeros(&mut image), done(0));
    assert_eq!(image[OBJECT + 32 + 9..][..2], [0, 0]);
    assert_eq!(field(&image, USER + 65, 16), b"FIFTEEN-LETTERS\0");
    assert_eq!(field(&image, USER + 97, 16), b"SIXTEEN-LETTERS-");
}

/// What was converted is not converted again.
#[test]
fn twice_is_refused() {
    for way in WAYS {
        let mut image = yard(way.from);
        assert_eq!((way.convert)(&mut image), done(0));
        refuses(&image, 12, way.convert);
        assert_eq!((way.back)(&mut image), done(0));
        refuses(&image, 12, way.back);
    }
}

/// One field is not as it is to be: the volume's name, a user's, a file's or a
/// type, the first of them, one in between or the last. Whatever its fill is, the
/// whole volume is refused, both ways.
#[test]
fn one_in_the_way() {
    for Way { from, to, .. } in WAYS {
        let image = yard(from);
        let names: [&[u8; 16]; 6] = [
            b"OTHER'left over!",
            b"OTHER\0left over!",
            b"OTHER'\0\0\0\0\0\0\0\0\0A",
            b"OTHER\0\0\0\0\0\0\0\0\0\0'",
            b"OTHER''\0\0\0\0\0\0\0\0\0",
            b"OTHER\0'\0\0\0\0\0\0\0\0\0",
        ];
        for at in [VOLUME, USER + 1, USER + 65, OBJECT + 1, OBJECT + 65, OBJECT + 7 * 32 + 1] {
            names.iter().for_each(|bytes| blocked(&image, at, *bytes));
            for length in [1, 8, 15] {
                blocked(&image, at, &ended(&b"OTHER-OTHER-OTHER"[..length], to, 16));
            }
        }
        let types: [&[u8; 4]; 5] = [b"Z'\0A", b"Z\0\0'", b"''\0\0", b"\0'\0\0", b"\0\0\0\x01"];
        for at in [OBJECT + 9, OBJECT + 32 + 9, OBJECT + 7 * 32 + 9] {
            types.iter().for_each(|bytes| blocked(&image, at, *bytes));
            for length in 0..4 {
                blocked(&image, at, &ended(&b"ZYX"[..length], to, 4));
            }
        }
    }
}

/// The volume with these bytes in a field is sound, and refused by both calls.
fn blocked(image: &[u16], at: usize, bytes: &[u8]) {
    let mut image = image.to_vec();
    put(&mut image, at, bytes);
    assert_eq!(check(&image).number, 0, "at {at}: {bytes:?}");
    refuses(&image, 12, convert_to_apostrophe);
    refuses(&image, 12, convert_to_zeros);
}

/// Half of the names in one fill and half in the other.
#[test]
fn mixed_volumes() {
    let mut chance = Chance::new(3);
    for _ in 0..50 {
        let mut image = yard(0);
        for (at, length) in fields(&image) {
            let end = [0, 39][chance.below(2) as usize];
            let old = field(&image, at, length);
            put(&mut image, at, &ended(before_the_end(&old), end, length));
        }
        put(&mut image, VOLUME, b"YARD\0\0\0\0\0\0\0\0\0\0\0\0");
        put(&mut image, USER + 33, b"A'\0\0\0\0\0\0\0\0\0\0\0\0\0\0");
        refuses(&image, 12, convert_to_apostrophe);
        refuses(&image, 12, convert_to_zeros);
    }
}

/// Where nothing is short, both are done and change nothing.
#[test]
fn all_full() {
    let mut image = vec![7; 20 * 1024];
    assert_eq!(format(&mut image, b"SIXTEEN-LETTERS-", None), done(0));
    assert_eq!(create_user(&mut image, b"SIXTEEN-LETTERS0"), done(0));
    assert_eq!(create_indexed(&mut image, 0, b"SIXTEEN-LETTERS1", b"DATA", 0), done(0));
    let before = image.clone();
    for convert in [convert_to_apostrophe, convert_to_zeros, convert_to_zeros, convert_to_apostrophe] {
        assert_eq!(convert(&mut image), done(0));
        assert!(image == before);
    }
    put(&mut image, OBJECT + 9, b"DAT\0");
    refuses(&image, 12, convert_to_zeros);
    put(&mut image, OBJECT + 9, b"DAT'");
    refuses(&image, 12, convert_to_apostrophe);
    assert_eq!(convert_to_zeros(&mut image), done(0));
    assert_eq!(field(&image, OBJECT + 9, 4), b"DAT\0");
}

/// A volume without users has one name.
#[test]
fn volume_alone() {
    let mut image = volume(8);
    refuses(&image, 12, convert_to_apostrophe);
    assert_eq!(convert_to_zeros(&mut image), done(0));
    assert_eq!(field(&image, VOLUME, 16), b"YARD\0\0\0\0\0\0\0\0\0\0\0\0");
    refuses(&image, 12, convert_to_zeros);
    assert_eq!(convert_to_apostrophe(&mut image), done(0));
    assert!(image == volume(8));
}

/// The last user that there can be, and the last of all his files.
#[test]
fn all_entries() {
    let mut image = volume(64);
    (0..256).for_each(|n| assert_eq!(create_user(&mut image, &nth(n)), done(n)));
    (0..256).for_each(|n| assert_eq!(create_indexed(&mut image, 255, &nth(n), b"", 0), done(n)));
    let new = image.clone();
    assert_eq!(convert_to_zeros(&mut image), done(0));
    assert!(image == converted(&new, 0));
    assert_eq!(field(&image, 11 * 1024 + 993, 16), b"N-255\0\0\0\0\0\0\0\0\0\0\0");
    assert_eq!(field(&image, 20 * 1024 + 993, 16), b"N-255\0\0\0\0\0\0\0\0\0\0\0");
    assert_eq!(convert_to_apostrophe(&mut image), done(0));
    assert!(image == new);
    put(&mut image, 20 * 1024 + 1001, b"\0\0\0\0");
    refuses(&image, 12, convert_to_zeros);
}

/// Unused entries of user and object pages keep whatever they have, and stand in
/// nobody's way.
#[test]
fn unused_entries() {
    let left: [&[u8; 16]; 5] = [
        b"LEFT\0\0\0\0\0\0\0\0\0\0\0\0",
        b"LEFT'\0\0\0\0\0\0\0\0\0\0\0",
        b"left over words!",
        b"'\0\0\0\0\0\0\0\0\0\0\0\0\0\0\0",
        b"DOCK'left over!!",
    ];
    for (way, bytes) in WAYS.into_iter().flat_map(|way| left.map(|bytes| (way, bytes))) {
        let mut image = yard(way.from);
        for entry in [USER + 5 * 32, USER + 31 * 32, OBJECT + 9 * 32, OBJECT + 31 * 32] {
            image[entry] = 0x7FFF;
            put(&mut image, entry + 1, bytes);
            put(&mut image, entry + 9, &bytes[2..6]);
        }
        let before = image.clone();
        assert_eq!((way.convert)(&mut image), done(0));
        assert!(image == converted(&before, way.to));
        for entry in [USER + 5 * 32, USER + 31 * 32, OBJECT + 9 * 32, OBJECT + 31 * 32] {
            assert_eq!(image[entry..][..32], before[entry..][..32]);
        }
    }
}

/// 1, then 3 with its rule and place, then 12: an image that is unsound and in
/// the wrong fill is told unsound, and one in the right fill, too.
#[test]
fn order_of_refusals() {
    for (way, end) in WAYS.into_iter().flat_map(|way| [0, 39].map(|end| (way, end))) {
        let image = yard(end);
        for words in [0, 7 * 1024, 8 * 1024 - 1, image.len() - 1] {
            let mut part = image[..words].to_vec();
            assert_eq!((way.convert)(&mut part), refused(1));
            assert!(part == image[..words]);
        }
        let breaks = [
            (VOLUME, 0x2700, unsound(1, 0, 1008)),
            (1016, 0, unsound(2, 0, 1016)),
            (USER + 33, 0x6100, unsound(4, 2, 33)),
            (OBJECT + 41, 0x6100, unsound(6, 4, 41)),
            (OBJECT + 28, 1, unsound(7, 4, 28)),
            (1023, 999, unsound(10, 0, 1022)),
        ];
        for (at, word, told) in breaks {
            let mut broken = image.clone();
            broken[at] = word;
            let before = broken.clone();
            assert_eq!((way.convert)(&mut broken), told);
            assert!(broken == before);
        }
    }
}

/// Calls write the new fill, so on an old volume they mix the two.
#[test]
fn calls_between() {
    let mut image = yard(0);
    assert_eq!(create_user(&mut image, b"NEW"), done(4));
    refuses(&image, 12, convert_to_apostrophe);
    assert_eq!(delete_user(&mut image, 4), done(0));
    assert_eq!(convert_to_apostrophe(&mut image), done(0));
    assert_eq!(create_user(&mut image, b"NEW"), done(4));
    assert_eq!(convert_to_zeros(&mut image), done(0));
    assert_eq!(field(&image, USER + 4 * 32 + 1, 16), b"NEW\0\0\0\0\0\0\0\0\0\0\0\0\0");
    assert_eq!(find_user(&image, b"NEW"), done(4));
}

/// By steps of a run, which use nothing else of the step.
#[test]
fn in_a_run() {
    let step = |call: u32| Step {
        call,
        user: u32::MAX,
        name_at: u32::MAX,
        type_at: u32::MAX,
        data_at: u32::MAX,
        ..Step::default()
    };
    let image = yard(0);
    let mut after = image.clone();
    let mut replies = [refused(99); 6];
    assert_eq!(run(&mut after, &[20, 2, 21, 20].map(step), b"", &[], &mut [], &mut replies), 4);
    assert_eq!(
        (replies[0], replies[2], replies[3], replies[4]),
        (done(0), done(0), done(0), refused(99))
    );
    assert!(after == converted(&image, 39));
    assert_eq!(run(&mut after, &[20, 21].map(step), b"", &[], &mut [], &mut replies), 1);
    assert_eq!(replies[0], refused(12));
    assert_eq!(run(&mut after, &[21, 20, 21, 21, 20].map(step), b"", &[], &mut [], &mut replies), 4);
    assert_eq!((replies[2], replies[3]), (done(0), refused(12)));
    assert!(after == image);
}

/// A volume of chance users, files and lengths, some of them deleted again, with
/// users past 64 now and then.
fn by_chance(chance: &mut Chance) -> Vec<u16> {
    let mut image = dock(120, 20);
    if chance.once_in(4) {
        (0..66).for_each(|n| assert_eq!(create_user(&mut image, &nth(n)).number, 0));
    }
    for _ in 0..60 {
        let user = [0, 1, 2, 31, 32, 63, 64, 66][chance.below(8) as usize];
        let name: Vec<u8> = (0..=chance.below(16)).map(|_| b"AB-09Z"[chance.below(6) as usize]).collect();
        let kind: Vec<u8> = (0..chance.below(5)).map(|_| b"XY"[chance.below(2) as usize]).collect();
        match chance.below(6) {
            0 => create_user(&mut image, &name),
            1 | 2 => create_indexed(&mut image, user, &name, &kind, 7),
            3 => create_contiguous(&mut image, 0, &name, &kind, 7, 1),
            4 => delete_file(&mut image, user, chance.below(4) as usize),
            _ => delete_user(&mut image, user),
        };
    }
    image
}

#[test]
fn there_and_back_on_chance_volumes() {
    let mut chance = Chance::new(9);
    for _ in 0..150 {
        let base = by_chance(&mut chance);
        for way in WAYS {
            let mut image = base.clone();
            fill(&mut image, way.from);
            let before = image.clone();
            assert_eq!((way.convert)(&mut image), done(0));
            assert!(image == converted(&before, way.to));
            assert_eq!(check(&image), check(&before));
            refuses(&image, 12, way.convert);
            assert_eq!((way.back)(&mut image), done(0));
            assert!(image == before);
        }
    }
}
