//! Users and files by name and by index.

use crate::common::{disk, done, fails, sample};

#[test]
fn an_index_stands_for_a_name() {
    let (_folder, image) = sample();
    let by_name = done(&image, "address IMAGE DOCK/READS:DATA 1");
    for line in ["address IMAGE @0/READS:DATA 1", "address IMAGE DOCK/@0 1", "address IMAGE @0/@0 1"] {
        assert_eq!(done(&image, line), by_name, "{line}");
    }
    assert_eq!(done(&image, "user give IMAGE @0 3"), "3 pages given to user 0\n");
}

#[test]
fn a_file_without_a_type_has_two_spellings() {
    let (_folder, image) = disk(154, 50);
    done(&image, "file create IMAGE DOCK/READS");
    assert_eq!(done(&image, "find IMAGE DOCK/READS"), "user 0 file 0\n");
    assert_eq!(done(&image, "find IMAGE DOCK/READS:"), "user 0 file 0\n");
    fails(&image, "file create IMAGE DOCK/READS:", 5);
}

#[test]
fn a_name_of_digits_is_a_name() {
    let (_folder, image) = disk(154, 50);
    assert!(fails(&image, "user delete IMAGE 0", 4).ends_with("there is no such user: 0 (an index is written @0)\n"));
    done(&image, "user add IMAGE 0");
    done(&image, "user add IMAGE 1980");
    assert_eq!(done(&image, "find IMAGE 0"), "user 1\n");
    done(&image, "user give IMAGE 0 4");
    done(&image, "user give IMAGE @0 2");
    done(&image, "file create IMAGE 0/7:7");
    assert_eq!(done(&image, "find IMAGE 0/7:7"), "user 1 file 0\n");
    let listing = done(&image, "list IMAGE");
    assert!(
        listing.contains("USER 0 DOCK GIVEN 52 USED 0\nUSER 1 0 GIVEN 4 USED 0\nFILE 0 7:7 PAGES 0 EMPTY\nUSER 2 1980 GIVEN 0 USED 0\n")
    );
}
