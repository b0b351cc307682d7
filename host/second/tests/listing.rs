//! The listing beyond the yard example: kinds, order and refusals.

mod common;
use common::*;
use second::*;

fn listed(image: &[u16]) -> String {
    String::from_utf8(list(&bytes(image))).unwrap()
}

#[test]
fn kinds_and_order() {
    let mut image = dock(32, 6);
    create_user(&mut image, b"A-2");
    give(&mut image, 1, 3);
    assert_eq!(create_contiguous(&mut image, 1, b"RUN", b"X-1", 0, 3), done(0));
    assert_eq!(create_indexed(&mut image, 0, b"ZERO", b"", 0), done(0));
    assert_eq!(create_indexed(&mut image, 0, b"ONE", b"1", 0), done(1));
    grow(&mut image, 0, 1);
    let expected = "VOLUME YARD PAGES 32 RESERVED 12 UNRESERVED 16\n\
                    USER 0 DOCK GIVEN 6 USED 2\n\
                    FILE 0 ZERO: PAGES 0 EMPTY\n\
                    FILE 1 ONE:1 PAGES 1 INDEXED\n\
                    USER 1 A-2 GIVEN 3 USED 3\n\
                    FILE 0 RUN:X-1 PAGES 3 CONTIGUOUS\n";
    assert_eq!(listed(&image), expected);
}

#[test]
fn refusals() {
    assert_eq!(listed(&volume(33)), "REFUSED 1\n");
    assert_eq!(listed(&volume(8)[..7 * 1024]), "REFUSED 1\n");
    assert_eq!(listed(&[]), "REFUSED 1\n");
    assert_eq!(list(&bytes(&volume(8))[1..]), b"REFUSED 1\n");
    assert_eq!(list(&bytes(&volume(8))[2..]), b"REFUSED 1\n");
    assert_eq!(listed(&vec![0; 8 * 1024]), "REFUSED 3 RULE 1\n");
    let mut image = volume(9);
    put_pair(&mut image, 1022, 8);
    assert_eq!(listed(&image), "REFUSED 3 RULE 10\n");
}
