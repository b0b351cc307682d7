//! Each number of the table, that the lowest one is given, and that a
//! refused call leaves the image as it was.

mod common;
use common::*;
use second::*;

type Call = Box<dyn Fn(&mut [u16]) -> Reply>;

/// The largest number of 32 bits, and the first that they do not hold: cut to
/// 32 bits, it and those above it would be small.
const LARGE: usize = u32::MAX as usize;
const WIDE: usize = LARGE + 1;

/// Every call with arguments that are right for `reads`, but format, and but
/// the conversion of old names, which `reads` has none of.
fn all_calls() -> Vec<Call> {
    vec![
        Box::new(|image| check(image)),
        Box::new(|image| find_user(image, b"DOCK")),
        Box::new(|image| find_file(image, 0, b"READS", b"DATA")),
        Box::new(|image| address(image, 0, 0, 0)),
        Box::new(|image| who_holds(image, 3).reply),
        Box::new(|image| create_user(image, b"FLOCK")),
        Box::new(|image| delete_user(image, 1)),
        Box::new(|image| give(image, 0, 1)),
        Box::new(|image| take(image, 0, 1)),
        Box::new(|image| create_indexed(image, 0, b"NEW", b"DATA", 0)),
        Box::new(|image| create_contiguous(image, 0, b"NEW", b"DATA", 0, 1)),
        Box::new(|image| grow(image, 0, 0)),
        Box::new(|image| shrink(image, 0, 0)),
        Box::new(|image| delete_file(image, 0, 0)),
        Box::new(|image| write_page(image, 0, 0, 0, &[9; 1024])),
        Box::new(|image| note_open(image, 0, 0)),
        Box::new(|image| convert_to_zeros(image)),
    ]
}

/// `reads` with a second user, so that every call above is done.
fn two_users() -> Vec<u16> {
    let mut image = reads(32, 6, 1);
    assert_eq!(create_user(&mut image, b"RAMS"), done(1));
    image
}

#[test]
fn number_0_for_all() {
    for call in all_calls() {
        assert_eq!(call(&mut two_users()).number, 0);
    }
}

#[test]
fn number_1_for_all() {
    let image = two_users();
    for call in all_calls() {
        refuses(&image[1..], 1, &call);
        refuses(&image[..7 * 1024], 1, &call);
        refuses(&[], 1, &call);
    }
    refuses(&image[1..], 1, |image| format(image, b"bad", Some(0)));
    refuses(&image[1..], 1, |image| give(image, 300, 0));
    refuses(&image[1..], 1, |image| write_page(image, 0, 0, 0, &[]));
    assert!(read_page(&image[1..], 0, 0, 0).is_empty());
}

#[test]
fn number_2_for_indexes_and_counts() {
    let image = two_users();
    for bad in [256, LARGE, WIDE, WIDE + 1] {
        refuses(&image, 2, |image| find_file(image, bad, b"READS", b"DATA"));
        refuses(&image, 2, |image| address(image, bad, 0, 0));
        refuses(&image, 2, |image| address(image, 0, bad, 0));
        refuses(&image, 2, |image| delete_user(image, bad));
        refuses(&image, 2, |image| give(image, bad, 1));
        refuses(&image, 2, |image| take(image, bad, 1));
        refuses(&image, 2, |image| create_indexed(image, bad, b"NEW", b"", 0));
        refuses(&image, 2, |image| create_contiguous(image, bad, b"NEW", b"", 0, 1));
        refuses(&image, 2, |image| grow(image, bad, 0));
        refuses(&image, 2, |image| shrink(image, 0, bad));
        refuses(&image, 2, |image| delete_file(image, 0, bad));
        refuses(&image, 2, |image| write_page(image, 0, bad, 0, &[0; 1024]));
        refuses(&image, 2, |image| note_open(image, 0, bad));
    }
    for bad in [0, 140_734, LARGE, WIDE, WIDE + 1] {
        refuses(&image, 2, |image| give(image, 0, bad));
        refuses(&image, 2, |image| take(image, 0, bad));
        refuses(&image, 2, |image| create_contiguous(image, 0, b"NEW", b"", 0, bad));
    }
    for bad in [32, LARGE, WIDE, WIDE + 3] {
        assert_eq!(who_holds(&image, bad).reply, refused(2));
    }
    refuses(&image, 2, |image| write_page(image, 0, 0, 0, &[0; 1023]));
    refuses(&image, 2, |image| write_page(image, 0, 0, 0, &[0; 1025]));
}

/// The largest page count is that of the largest volume: on a small one, counts far
/// above P are right arguments, and other numbers are given.
#[test]
fn a_count_is_not_held_against_p() {
    let image = two_users();
    for count in [33, 16_384, 16_385, 32_769, 65_536, 140_733] {
        refuses(&image, 10, |image| give(image, 0, count));
        refuses(&image, 9, |image| take(image, 0, count));
        refuses(&image, 9, |image| create_contiguous(image, 0, b"NEW", b"", 0, count));
    }
}

#[test]
fn number_2_for_names_and_types() {
    let image = two_users();
    let wrong: [&[u8]; 6] = [b"", b"abc", b"A B", b"A\0", b"ABCDEFGHIJKLMNOPQ", b"A_B"];
    // What ends a stored name is no part of it.
    let ended: [&[u8]; 5] = [b"DOCK'", b"DOCK\0", b"'", b"A'B", b"FIFTEEN-LETTERS'"];
    let names = wrong.into_iter().chain(ended);
    for name in names {
        refuses(&image, 2, |image| format(image, name, None));
        refuses(&image, 2, |image| find_user(image, name));
        refuses(&image, 2, |image| find_file(image, 0, name, b""));
        refuses(&image, 2, |image| create_user(image, name));
        refuses(&image, 2, |image| create_indexed(image, 0, name, b"", 0));
        refuses(&image, 2, |image| create_contiguous(image, 0, name, b"", 0, 1));
    }
    let kinds: [&[u8]; 7] = [b"a", b"ABCDE", b"A\0", b":", b"A'", b"'", b"\0"];
    for kind in kinds {
        refuses(&image, 2, |image| find_file(image, 0, b"A", kind));
        refuses(&image, 2, |image| create_indexed(image, 0, b"A", kind, 0));
        refuses(&image, 2, |image| create_contiguous(image, 0, b"A", kind, 0, 1));
    }
}

#[test]
fn number_2_for_the_bit_page() {
    let image = vec![7; 9 * 1024];
    for bad in [0, 9, LARGE, WIDE, WIDE + 1] {
        refuses(&image, 2, |image| format(image, b"YARD", Some(bad)));
    }
}

/// Every call tells the same of an unsound image, and leaves it.
fn number_3_of_all(image: &[u16], told: Reply) {
    for call in all_calls() {
        let mut after = image.to_vec();
        assert_eq!(call(&mut after), told);
        assert!(after == image);
    }
}

#[test]
fn number_3_for_all() {
    let mut image = two_users();
    put_pair(&mut image, 6 * 1024, 6);
    let on_itself = shared(6, holder(kind::FILE_INDEX, 0, 0, 0), holder(kind::FILE_DATA, 0, 0, 0));
    number_3_of_all(&image, on_itself);
    assert_eq!(who_holds(&image, 6).holder, Holder::default());
    put_pair(&mut image, 6 * 1024, 5);
    put_pair(&mut image, 1022, 10_000);
    number_3_of_all(&image, unsound(10, 0, 1022));
    assert!(read_page(&image, 0, 0, 0).is_empty());
    refuses(&image, 2, |image| give(image, 256, 1));
    refuses(&image, 2, |image| who_holds(image, 32).reply);
    assert_eq!(format(&mut image, b"YARD", None), done(0));
}

#[test]
fn number_4() {
    let image = two_users();
    refuses(&image, 4, |image| find_user(image, b"NOBODY"));
    refuses(&image, 4, |image| find_file(image, 0, b"READS", b"DAT"));
    refuses(&image, 4, |image| find_file(image, 2, b"READS", b"DATA"));
    refuses(&image, 4, |image| address(image, 0, 0, 1));
    for far in [LARGE, WIDE] {
        refuses(&image, 4, |image| address(image, 0, 0, far));
        refuses(&image, 4, |image| write_page(image, 0, 0, far, &[0; 1024]));
        assert!(read_page(&image, 0, 0, far).is_empty());
    }
    refuses(&image, 4, |image| address(image, 0, 255, 0));
    refuses(&image, 4, |image| address(image, 255, 0, 0));
    refuses(&image, 4, |image| delete_user(image, 2));
    refuses(&image, 4, |image| give(image, 2, 140_733));
    refuses(&image, 4, |image| take(image, 2, 140_733));
    refuses(&image, 4, |image| create_indexed(image, 2, b"NEW", b"", 0));
    refuses(&image, 4, |image| create_contiguous(image, 2, b"NEW", b"", 0, 140_733));
    refuses(&image, 4, |image| grow(image, 0, 1));
    refuses(&image, 4, |image| shrink(image, 1, 0));
    refuses(&image, 4, |image| delete_file(image, 0, 1));
    refuses(&image, 4, |image| write_page(image, 0, 0, 1, &[0; 1024]));
    refuses(&image, 4, |image| note_open(image, 200, 3));
    assert!(read_page(&image, 0, 0, 1).is_empty());
    let fresh = volume(8);
    refuses(&fresh, 4, |image| find_user(image, b"DOCK"));
    refuses(&fresh, 4, |image| note_open(image, 0, 0));
}

#[test]
fn number_5() {
    let image = two_users();
    refuses(&image, 5, |image| create_user(image, b"RAMS"));
    refuses(&image, 5, |image| create_indexed(image, 0, b"READS", b"DATA", 0));
    refuses(&image, 5, |image| create_contiguous(image, 0, b"READS", b"DATA", 0, 140_733));
    assert_eq!(create_indexed(&mut image.clone(), 0, b"READS", b"DAT", 0), done(1));
    assert_eq!(create_indexed(&mut image.clone(), 1, b"READS", b"DATA", 0), done(0));
}

#[test]
fn number_6() {
    let mut image = reads(32, 3, 0);
    assert_eq!(create_contiguous(&mut image, 0, b"RUN", b"", 0, 3), done(1));
    refuses(&image, 6, |image| grow(image, 0, 1));
    refuses(&image, 6, |image| shrink(image, 0, 1));
    refuses(&image, 6, |image| shrink(image, 0, 0));
}

#[test]
fn number_7() {
    let image = two_users();
    refuses(&image, 7, |image| delete_user(image, 0));
    assert_eq!(delete_user(&mut image.clone(), 1), done(0));
}

#[test]
fn number_8_for_users() {
    let mut image = volume(32);
    for n in 0..256 {
        assert_eq!(create_user(&mut image, &nth(n)), done(n));
    }
    refuses(&image, 5, |image| create_user(image, b"N-255"));
    refuses(&image, 8, |image| create_user(image, b"MORE"));
    // 8 user pages, user index, object index, subindex, master, bit file.
    assert_eq!(check(&image), done(13));
}

#[test]
fn number_8_for_files() {
    let mut image = dock(32, 1);
    for n in 0..256 {
        assert_eq!(create_indexed(&mut image, 0, &nth(n), b"", n), done(n));
    }
    refuses(&image, 5, |image| create_indexed(image, 0, b"N-255", b"", 0));
    refuses(&image, 8, |image| create_indexed(image, 0, b"MORE", b"", 0));
    refuses(&image, 8, |image| create_contiguous(image, 0, b"MORE", b"", 0, 2));
    assert_eq!(delete_file(&mut image, 0, 100), done(0));
    refuses(&image, 9, |image| create_contiguous(image, 0, b"MORE", b"", 0, 2));
    assert_eq!(create_contiguous(&mut image, 0, b"MORE", b"", 0, 1), done(100));
}

#[test]
fn number_9() {
    let image = reads(32, 2, 1);
    refuses(&image, 9, |image| grow(image, 0, 0));
    refuses(&image, 9, |image| take(image, 0, 1));
    refuses(&image, 9, |image| create_contiguous(image, 0, b"RUN", b"", 0, 1));
    refuses(&reads(32, 1, 0), 9, |image| grow(image, 0, 0));
    // From 512 a grow takes three.
    let mut image = reads(600, 515, 512);
    refuses(&image, 9, |image| grow(image, 0, 0));
    assert_eq!(give(&mut image, 0, 1), done(0));
    assert_eq!(grow(&mut image, 0, 0).number, 0);
}

#[test]
fn number_10() {
    let image = dock(8, 0);
    assert_eq!(unreserved(&image), 3);
    refuses(&image, 10, |image| give(image, 0, 4));
    let mut all_given = image.clone();
    assert_eq!(give(&mut all_given, 0, 3), done(0));
    refuses(&all_given, 10, |image| create_indexed(image, 0, b"NEW", b"", 0));
    refuses(&all_given, 10, |image| create_contiguous(image, 0, b"NEW", b"", 0, 3));
    refuses(&all_given, 9, |image| create_contiguous(image, 0, b"NEW", b"", 0, 4));
    refuses(&all_given, 10, |image| give(image, 0, 1));
    assert_eq!(create_user(&mut all_given, b"RAMS"), done(1));
    let mut crowded = volume(32);
    for n in 0..32 {
        create_user(&mut crowded, &nth(n));
    }
    let rest = unreserved(&crowded) as usize;
    assert_eq!(give(&mut crowded, 0, rest), done(0));
    refuses(&crowded, 10, |image| create_user(image, b"MORE"));
}

#[test]
fn number_11() {
    let mut image = dock(16, 0);
    // Pages 0..3 and 8 are held; 4..7 and 9..15 are free.
    assert_eq!(give(&mut image, 0, 8), done(0));
    refuses(&image, 11, |image| create_contiguous(image, 0, b"RUN", b"", 0, 8));
    assert_eq!(create_contiguous(&mut image, 0, b"RUN", b"", 0, 7), done(0));
    assert_eq!(address(&image, 0, 0, 0), done(9));
    // The object page, the lowest free, does not harm the run above it,
    let mut tight = volume(9);
    assert_eq!(format(&mut tight, b"YARD", Some(1)), done(0));
    assert_eq!(create_user(&mut tight, b"DOCK"), done(0));
    assert_eq!(give(&mut tight, 0, 3), done(0));
    assert_eq!(create_contiguous(&mut tight.clone(), 0, b"RUN", b"", 0, 3), done(0));
    // but here it takes the first page of the only run.
    let mut split = volume(9);
    assert_eq!(format(&mut split, b"YARD", Some(7)), done(0));
    assert_eq!(create_user(&mut split, b"DOCK"), done(0));
    assert_eq!(give(&mut split, 0, 3), done(0));
    refuses(&split, 11, |image| create_contiguous(image, 0, b"RUN", b"", 0, 3));
}
